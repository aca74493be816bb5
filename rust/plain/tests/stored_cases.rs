//! The stored cases of whole files, byte for byte: what another separate calculation says.

use std::fs;
use std::path::Path;

fn stored(side: &str) -> Vec<u8> {
    let cases = Path::new(env!("CARGO_MANIFEST_DIR")).join("../../crates/file_cases");
    fs::read(cases.join(side)).expect("the stored cases are in crates/file_cases")
}

/// A record: 4 bytes, the file's length; 2 bytes, the buffer's length, or 65,535 for what the
/// program prints; the file.
fn record(input: &[u8]) -> (&[u8], u16, &[u8]) {
    let (head, rest) = input.split_first_chunk::<6>().expect("a record's head");
    let length = u32::from_le_bytes([head[0], head[1], head[2], head[3]]);
    let (file, rest) = rest.split_at(length as usize);
    (file, u16::from_le_bytes([head[4], head[5]]), rest)
}

/// `checked`, number and slot; `listed`, number, slot and length; then the lent buffer of tildes as
/// it is after the call.
fn listed(file: &[u8], length: u16) -> Vec<u8> {
    let check = plain::check(file).err();
    let (number, slot) = check.map_or((0, 0), |refusal| (refusal.number, refusal.slot));
    let mut printed = format!("checked {number} {slot}\n").into_bytes();
    let mut buffer = vec![b'~'; usize::from(length)];
    let (number, slot, length) = match plain::list(file, &mut buffer) {
        Ok(length) => (0, 0, length),
        Err(refusal) => (refusal.number, refusal.slot, 0),
    };
    printed.extend(format!("listed {number} {slot} {length}\n").bytes());
    printed.append(&mut buffer);
    printed.push(b'\n');
    printed
}

/// The answer and the check say the same as what is printed.
fn agree(file: &[u8], printed: &[u8]) -> bool {
    let refused = printed.starts_with(b"refused");
    match (plain::check(file), plain::answer(file)) {
        (Ok(()), Ok(_)) => !refused,
        (Err(check), Err(answer)) => {
            let line = format!("refused {} {}\n", check.number, check.slot);
            check == answer && printed == line.as_bytes()
        }
        _ => false,
    }
}

#[test]
fn stored_cases() {
    let input = stored("stdin");
    let output = stored("stdout");
    let mut rest = &input[..];
    let mut expected = &output[..];
    let mut cases = 0;
    while !rest.is_empty() {
        let (file, length, after) = record(rest);
        let printed = if length == 65_535 {
            let printed = plain::print(file);
            assert!(agree(file, &printed), "case {cases}: check and answer");
            printed
        } else {
            listed(file, length)
        };
        assert!(
            expected.starts_with(&printed),
            "case {cases}: {}",
            String::from_utf8_lossy(&printed)
        );
        expected = &expected[printed.len()..];
        rest = after;
        cases += 1;
    }
    assert!(expected.is_empty());
    assert!(cases > 4_000, "{cases} cases");
}
