//! The walk over a file: questions 1 to 12 and 14 (01, "Questions in order"; 02, U1).

use crate::locomotives::Locomotive;
use crate::slots::{self, Slot, SLOT};
use crate::stores::Store;
use crate::vehicles::{temperatures_in_range, Coefficients, Group, Temperatures};
use crate::Refusal;

/// A file has at most 65,536 bytes.
const MOST_SLOTS: usize = 65_536 / SLOT;

/// "A source is a group or store record on its chain", and so is a locomotive.
pub enum Source<'a> {
    Group(&'a Group, &'a Temperatures, &'a [Coefficients; 6]),
    Store(&'a Store),
    Locomotive(&'a Locomotive),
}

/// How many sources an accepted file has.
pub struct Counts {
    pub groups: u16,
    pub stores: u16,
    pub locomotives: u16,
}

/// "The walk takes the group chain, then the store chain"; the locomotives are "walked after the
/// stores". Each source goes to `take` once all its questions are answered yes; the file may still
/// be refused after that.
pub fn walk(file: &[u8], mut take: impl FnMut(Source)) -> Result<Counts, Refusal> {
    let (slots, temperatures) = head(file)?;
    let mut walk = Walk {
        slots,
        source: [false; MOST_SLOTS],
        reached: [false; MOST_SLOTS],
    };
    let groups = walk.groups(&temperatures, &mut take)?;
    let stores = walk.stores(&mut take)?;
    let locomotives = walk.locomotives(&mut take)?;
    walk.all_reached()?;
    Ok(Counts {
        groups,
        stores,
        locomotives,
    })
}

fn refuse<T>(number: u8, slot: u16) -> Result<T, Refusal> {
    Err(Refusal { number, slot })
}

/// Questions 1 to 5.
fn head(file: &[u8]) -> Result<(&[Slot], Temperatures), Refusal> {
    let (slots, rest) = file.as_chunks::<SLOT>();
    if !rest.is_empty() || slots.is_empty() || slots.len() > MOST_SLOTS {
        return refuse(1, 0);
    }
    let first = &slots[0];
    if slots::format(first) != 1 {
        return refuse(2, 0);
    }
    if usize::from(slots::count(first)) != slots.len() {
        return refuse(3, 0);
    }
    if !slots::head_rest_zero(first) {
        return refuse(4, 0);
    }
    let temperatures = slots::temperatures(first);
    if !temperatures_in_range(&temperatures) {
        return refuse(5, 0);
    }
    Ok((slots, temperatures))
}

struct Walk<'a> {
    slots: &'a [Slot],
    /// Slots met on this walk as a group, store record or locomotive.
    source: [bool; MOST_SLOTS],
    /// Slots met on this walk.
    reached: [bool; MOST_SLOTS],
}

impl<'a> Walk<'a> {
    /// Question 6, of a link in slot `holder`: the slot that it leads to.
    fn follow(&mut self, holder: u16, link: u16) -> Result<&'a Slot, Refusal> {
        match self.slots.get(usize::from(link)) {
            Some(slot) => {
                self.reached[usize::from(link)] = true;
                Ok(slot)
            }
            None => refuse(6, holder),
        }
    }

    /// Questions 6 and 7, of a link of a source chain.
    fn follow_source(&mut self, holder: u16, link: u16) -> Result<&'a Slot, Refusal> {
        let slot = self.follow(holder, link)?;
        if self.source[usize::from(link)] {
            return refuse(7, link);
        }
        self.source[usize::from(link)] = true;
        Ok(slot)
    }

    /// "At each nonzero link 6, 7, 8 and 9 are asked. After a group's own 9 come its six coefficient
    /// links", "then 11 for the group".
    fn groups(
        &mut self,
        temperatures: &Temperatures,
        take: &mut impl FnMut(Source),
    ) -> Result<u16, Refusal> {
        let mut count = 0;
        let mut holder = 0;
        let mut link = slots::first_group(&self.slots[0]);
        while link != 0 {
            let slot = self.follow_source(holder, link)?;
            if slots::kind(slot) != 1 {
                return refuse(8, link);
            }
            let group = slots::group(slot);
            if !group.in_range() || !slots::group_rest_zero(slot) {
                return refuse(9, link);
            }
            let coefficients = self.coefficients(link, slots::first_coefficients(slot))?;
            if group.forbidden(&coefficients) {
                return refuse(11, link);
            }
            take(Source::Group(&group, temperatures, &coefficients));
            count += 1;
            holder = link;
            link = slots::next(slot);
        }
        Ok(count)
    }

    /// "its six coefficient links, each asking: nonzero (10), 6, 8, 9, pollutant in turn (10);
    /// after the sixth, next is zero (10)"
    fn coefficients(&mut self, group: u16, first: u16) -> Result<[Coefficients; 6], Refusal> {
        let mut read = [Coefficients::default(); 6];
        let mut holder = group;
        let mut link = first;
        for (coefficients, pollutant) in read.iter_mut().zip(1..) {
            if link == 0 {
                return refuse(10, holder);
            }
            let slot = self.follow(holder, link)?;
            if slots::kind(slot) != 2 {
                return refuse(8, link);
            }
            *coefficients = slots::coefficients(slot);
            if !coefficients.in_range() || !slots::coefficients_rest_zero(slot) {
                return refuse(9, link);
            }
            if slots::pollutant(slot) != pollutant {
                return refuse(10, link);
            }
            holder = link;
            link = slots::next(slot);
        }
        if link != 0 {
            return refuse(10, holder);
        }
        Ok(read)
    }

    /// "At each nonzero link 6, 7, 8 and 9 are asked."
    fn stores(&mut self, take: &mut impl FnMut(Source)) -> Result<u16, Refusal> {
        let mut count = 0;
        let mut holder = 0;
        let mut link = slots::first_store(&self.slots[0]);
        while link != 0 {
            let slot = self.follow_source(holder, link)?;
            let Some(store) = slots::store(slot) else {
                return refuse(8, link);
            };
            if !store.in_range() || !slots::store_rest_zero(slot, &store) {
                return refuse(9, link);
            }
            take(Source::Store(&store));
            count += 1;
            holder = link;
            link = slots::next(slot);
        }
        Ok(count)
    }

    /// "At each nonzero link 6, 7, 8 and 9 are asked", then 14, "asked after its 9".
    fn locomotives(&mut self, take: &mut impl FnMut(Source)) -> Result<u16, Refusal> {
        let mut count = 0;
        let mut holder = 0;
        let mut link = slots::first_locomotive(&self.slots[0]);
        while link != 0 {
            let slot = self.follow_source(holder, link)?;
            if slots::kind(slot) != 6 {
                return refuse(8, link);
            }
            let locomotive = slots::locomotive(slot);
            if !locomotive.in_range() || !slots::locomotive_rest_zero(slot) {
                return refuse(9, link);
            }
            if !locomotive.shares_total() {
                return refuse(14, link);
            }
            take(Source::Locomotive(&locomotive));
            count += 1;
            holder = link;
            link = slots::next(slot);
        }
        Ok(count)
    }

    /// "Is each slot from 1 up reached?", if not, "the lowest unreached".
    fn all_reached(&self) -> Result<(), Refusal> {
        let reached = &self.reached[..self.slots.len()];
        match (1..).zip(&reached[1..]).find(|(_, &reached)| !reached) {
            Some((slot, _)) => refuse(12, slot),
            None => Ok(()),
        }
    }
}
