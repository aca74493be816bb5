//! Both sides accept a file and say the same of it, so that no wrong work is measured.

use crate::work::BUFFER;

pub fn agree(file: &[u8]) -> Result<(), String> {
    tezhebul::check(file).map_err(|refusal| format!("library: {refusal:?}"))?;
    plain::check(file).map_err(|refusal| format!("plain: {refusal:?}"))?;
    let library =
        tezhebul::answer(file).map(|a| ([a.groups, a.stores, a.locomotives], a.annual, a.peak));
    let plain =
        plain::answer(file).map(|a| ([a.groups, a.stores, a.locomotives], a.annual, a.peak));
    equal("answer", library.ok(), plain.ok())?;
    let mut library_buffer = [b'~'; BUFFER];
    let mut plain_buffer = [b'~'; BUFFER];
    let library = tezhebul::list(file, &mut library_buffer);
    let plain = plain::list(file, &mut plain_buffer);
    equal("listing's length", library.ok(), plain.ok())?;
    equal("listing", library_buffer, plain_buffer)
}

fn equal<T: PartialEq + std::fmt::Debug>(asked: &str, library: T, plain: T) -> Result<(), String> {
    if library == plain {
        return Ok(());
    }
    Err(format!(
        "the {asked} differs\nlibrary: {library:?}\nplain:   {plain:?}"
    ))
}
