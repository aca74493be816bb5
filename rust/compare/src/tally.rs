//! What the files and the sources compared were like.

use std::fmt;

#[derive(Default)]
pub struct Tally {
    pub files: u64,
    accepted: u64,
    /// Slots of accepted files by their kind, which is one of `KINDS`; slots 0 are not counted.
    kinds: [u64; 1 + KINDS.len()],
    /// Groups of accepted files with a timed warm-up, which is at `TIMED`.
    timed: u64,
    /// By number; 13 is that of listings of accepted files.
    pub refused: [u64; 15],
    pub twins: u64,
    pub slots: u64,
    pub rules: Rules,
}

/// The calls of each rule.
#[derive(Default)]
pub struct Rules {
    pub handling: Calls,
    pub standing: Calls,
    pub aspiration: Calls,
    pub group: Calls,
    pub locomotive: Calls,
}

#[derive(Default)]
pub struct Calls {
    calls: u64,
    refused_9: u64,
    refused_11: u64,
    refused_14: u64,
}

/// The kinds of slots, from 1 up.
const KINDS: [&str; 6] = [
    "groups",
    "coefficients",
    "handling",
    "standing",
    "aspiration",
    "locomotives",
];

const GROUP: u8 = 1;
const TIMED: usize = 36;

impl Tally {
    pub fn accept(&mut self, file: &[u8]) {
        self.accepted += 1;
        for slot in file.chunks_exact(64).skip(1) {
            self.kinds[usize::from(slot[2])] += 1;
            self.timed += u64::from(slot[2] == GROUP && slot[TIMED] != 0);
        }
    }
}

impl Calls {
    pub fn count(&mut self, refusal: Option<&plain::Refusal>) {
        self.calls += 1;
        match refusal.map(|refusal| refusal.number) {
            Some(9) => self.refused_9 += 1,
            Some(11) => self.refused_11 += 1,
            Some(14) => self.refused_14 += 1,
            _ => {}
        }
    }

    fn add(&mut self, other: &Calls) {
        self.calls += other.calls;
        self.refused_9 += other.refused_9;
        self.refused_11 += other.refused_11;
        self.refused_14 += other.refused_14;
    }
}

impl fmt::Display for Tally {
    fn fmt(&self, f: &mut fmt::Formatter) -> fmt::Result {
        writeln!(f, "files {}, slots {}", self.files, self.slots)?;
        writeln!(f, "accepted {}", self.accepted)?;
        for (kind, count) in KINDS.iter().zip(&self.kinds[1..]) {
            writeln!(f, "  {kind} {count}")?;
        }
        writeln!(f, "  timed groups {}", self.timed)?;
        for number in (1..=12).chain([14]) {
            writeln!(f, "refused {number}: {}", self.refused[number])?;
        }
        writeln!(f, "accepted, listing refused 13: {}", self.refused[13])?;
        writeln!(f, "laid out twice {}", self.twins)?;
        write!(f, "{}", self.rules)
    }
}

impl fmt::Display for Calls {
    fn fmt(&self, f: &mut fmt::Formatter) -> fmt::Result {
        write!(
            f,
            "{}, refused 9: {}, refused 11: {}, refused 14: {}",
            self.calls, self.refused_9, self.refused_11, self.refused_14
        )
    }
}

impl fmt::Display for Rules {
    fn fmt(&self, f: &mut fmt::Formatter) -> fmt::Result {
        let rules = [
            ("handling", &self.handling),
            ("standing", &self.standing),
            ("aspiration", &self.aspiration),
            ("group", &self.group),
            ("locomotive", &self.locomotive),
        ];
        let mut total = Calls::default();
        for (_, calls) in rules {
            total.add(calls);
        }
        writeln!(f, "rule calls {total}")?;
        for (name, calls) in rules {
            writeln!(f, "  {name} {calls}")?;
        }
        Ok(())
    }
}
