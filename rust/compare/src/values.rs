//! Values drawn at random: in a range, just past it, or any that their type has room for.

use inputs::Random;

/// From `low` to `high`; at `edges` a table goes from one band to the next.
#[derive(Clone, Copy)]
pub struct Range {
    low: i64,
    high: i64,
    edges: &'static [i64],
}

pub const fn range(low: i64, high: i64) -> Range {
    banded(low, high, &[])
}

pub const fn banded(low: i64, high: i64, edges: &'static [i64]) -> Range {
    Range { low, high, edges }
}

const U8: Range = range(0, u8::MAX as i64);
const U16: Range = range(0, u16::MAX as i64);
const U32: Range = range(0, u32::MAX as i64);
const I16: Range = range(i16::MIN as i64, i16::MAX as i64);

impl Range {
    fn any(&self, random: &mut Random) -> i64 {
        self.low + random.below((self.high - self.low) as usize + 1) as i64
    }

    /// A value in the range, often near its ends or an edge.
    fn within(&self, random: &mut Random) -> i64 {
        let value = match random.below(8) {
            0 => self.low,
            1 => self.high,
            2 => self.low + random.below(4) as i64,
            3 => self.high - random.below(4) as i64,
            4 | 5 if !self.edges.is_empty() => random.pick(self.edges) + random.pick(&[-1, 0, 1]),
            // any size alike
            6 => self.low + ((self.any(random) - self.low) >> random.below(20)),
            _ => self.any(random),
        };
        value.clamp(self.low, self.high)
    }

    /// The value below the range or the one above it; one in the range where the type has room for
    /// neither.
    fn past(&self, random: &mut Random, room: &Range) -> i64 {
        match (self.low > room.low, self.high < room.high) {
            (true, true) => random.pick(&[self.low - 1, self.high + 1]),
            (true, false) => self.low - 1,
            (false, true) => self.high + 1,
            (false, false) => self.any(random),
        }
    }

    /// Any value, of any size alike.
    fn wild(&self, random: &mut Random) -> i64 {
        match random.below(4) {
            0 => self.low,
            1 => self.high,
            2 => self.any(random),
            _ => self.any(random) >> random.below(32),
        }
    }
}

/// What is wrong with the values of a source.
enum Fault {
    None,
    /// The one at this place is just past its range.
    Past(usize),
    /// The one at this place is any value.
    Wild(usize),
    /// Each is any value.
    AllWild,
}

/// Draws the values of one source in turn.
pub struct Draw<'a> {
    pub random: &'a mut Random,
    fault: Fault,
    drawn: usize,
}

impl<'a> Draw<'a> {
    /// One of the first `count` values, or all of them, may be wrong.
    pub fn new(random: &'a mut Random, count: usize) -> Draw<'a> {
        let place = random.below(count);
        let fault = match random.below(32) {
            0..=4 => Fault::Past(place),
            5 | 6 => Fault::Wild(place),
            7 => Fault::AllWild,
            _ => Fault::None,
        };
        Draw {
            random,
            fault,
            drawn: 0,
        }
    }

    /// The next value; `room` is the range of its type.
    fn value(&mut self, range: Range, room: Range) -> i64 {
        let place = self.drawn;
        self.drawn += 1;
        match self.fault {
            Fault::Past(at) if at == place => range.past(self.random, &room),
            Fault::Wild(at) if at == place => room.wild(self.random),
            Fault::AllWild => room.wild(self.random),
            _ => range.within(self.random),
        }
    }

    pub fn u8(&mut self, range: Range) -> u8 {
        u8::try_from(self.value(range, U8)).expect("there is room")
    }

    pub fn u16(&mut self, range: Range) -> u16 {
        u16::try_from(self.value(range, U16)).expect("there is room")
    }

    pub fn u32(&mut self, range: Range) -> u32 {
        u32::try_from(self.value(range, U32)).expect("there is room")
    }

    pub fn i16(&mut self, range: Range) -> i16 {
        i16::try_from(self.value(range, I16)).expect("there is room")
    }
}

#[cfg(test)]
mod tests {
    use super::*;

    const WARM: Range = banded(-600, 600, &[50, 599]);

    fn drawn(draw: impl Fn(&mut Random) -> i64) -> Vec<i64> {
        let mut random = Random::new(1, 1);
        let mut values: Vec<i64> = (0..20_000).map(|_| draw(&mut random)).collect();
        values.sort();
        values.dedup();
        values
    }

    #[test]
    fn within_a_range() {
        let values = drawn(|random| WARM.within(random));
        assert_eq!((values[0], *values.last().unwrap()), (-600, 600));
        assert_eq!(drawn(|random| range(4, 4).within(random)), [4]);
    }

    #[test]
    fn past_a_range() {
        assert_eq!(drawn(|random| WARM.past(random, &I16)), [-601, 601]);
        assert_eq!(drawn(|random| range(0, 9).past(random, &U8)), [10]);
        assert_eq!(drawn(|random| range(1, 255).past(random, &U8)), [0]);
        assert_eq!(drawn(|random| U8.past(random, &U8)).len(), 256);
    }

    #[test]
    fn any_value() {
        for room in [U8, U16, U32, I16] {
            let values = drawn(|random| room.wild(random));
            assert_eq!((values[0], *values.last().unwrap()), (room.low, room.high));
        }
    }
}
