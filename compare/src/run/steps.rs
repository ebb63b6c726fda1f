//! A sector at a time: the opening and the read of a file that are lent one sector after another, held to the original with its log of seeks.
//!
//! What is expected is the list of the sectors that the original sought, its answer and its bytes; with a sector that can't be had at a place of
//! the list, the original's on a reader that fails there. Of a row or an output that is too short what is expected is the front of that list.

use super::calls::{Call, Query, Values};
use super::expect::{Expected, expected};
use super::original::denying;
use super::random::Random;
use crate::udf::{AllocationExtentDescriptor, FileEntry, within};
use std::rc::Rc;
use strandlodge_sys::vault::{NO_ROOM, NO_SLOT};

/// An opening or a read by steps. The query's room is what is lent of the output.
#[derive(Clone, Debug)]
pub struct StepAsk {
    pub query: Query,
    /// The places of the row.
    pub slots: usize,
    /// The sector that can't be had, and how long the slice is that says so.
    pub denied: Option<u64>,
    pub wrong: usize,
    /// Tells the pattern that lent memory comes full of.
    pub salt: u8,
    /// More steps than these are too many.
    pub most: usize,
}

/// What held of the lent memory: the guards of the output, its bytes behind what arrived, the guards of the row, the row all zero; and that a step behind
/// the end changed nothing.
pub const STEPS_HELD: u8 = 31;

#[derive(Clone, Debug, Default)]
pub struct StepGiven {
    /// The length is that of the bytes that arrived, and these were written.
    pub values: Values,
    pub wanted: Vec<u64>,
    /// The bytes that had arrived behind each step.
    pub arrived: Vec<u64>,
    pub held: u8,
}

/// What is expected of an ask.
pub enum Wanted {
    /// The original's list, answer and output.
    All,
    /// 7 behind so many sectors of the list, and no byte.
    NoSlot(usize),
    /// 5 behind a front of the list, with as many bytes as there is room for.
    NoRoom,
}

pub struct StepCase {
    pub ask: StepAsk,
    pub expected: Rc<Expected>,
    pub wanted: Wanted,
}

/// A slice that isn't a sector.
fn wrong(random: &mut Random) -> usize {
    *random.pick(&[0, 0, 1, 2047, 2049, 4096])
}

/// Every sector is there, or one of the list isn't.
fn denials(random: &mut Random, list: &[u64]) -> Vec<Option<u64>> {
    let mut all = vec![None];
    if !list.is_empty() {
        all.push(Some(*random.pick(list)));
        // The last ones are where a read ends.
        all.extend(random.once_in(2).then_some(list.last().copied()));
    }
    all
}

/// The cases of a query, which opens or reads, on the disc and on some with a sector that can't be had: the first of each with memory to spare.
pub fn groups(random: &mut Random, image: &[u8], q: &Query) -> Vec<Vec<StepCase>> {
    let list = expected(image, q).sectors;
    denials(random, &list).into_iter().map(|denied| cases(random, image, q, denied)).collect()
}

/// Behind how many sectors of a chain, whose list the original gave, an extent has no place in a row of so many: behind the entry or the continuation that
/// names it, where that is accepted.
fn full_behind(image: &[u8], q: &Query, list: &[u64], denied: Option<u64>, slots: usize) -> Option<usize> {
    let bytes = |sectors: &[u64]| {
        let there = |s: &u64| image.get(*s as usize * 2048..).and_then(|rest| rest.get(..2048)).filter(|_| denied != Some(*s));
        Some(sectors.iter().map(there).collect::<Option<Vec<_>>>()?.concat())
    };
    let walked = || {
        let mut entry = FileEntry::parse(&bytes(list.get(..1)?)?).ok()?;
        let mut behind = 1;
        while entry.extents().len() <= slots {
            let next = entry.continuation.take()?;
            let end = behind + (next.length as usize).div_ceil(2048);
            let whole = bytes(list.get(behind..end)?)?;
            let header = AllocationExtentDescriptor::parse(&whole).ok()?;
            let area = whole[..next.length as usize].get(24..)?.get(..header.length_of_allocation_descriptors as usize)?;
            within::area(&mut entry, area).ok()?;
            behind = end;
        }
        Some(behind)
    };
    within::checked(q.is_checked(), walked).0
}

/// With memory to spare; and for a read with exactly enough, and too little.
fn cases(random: &mut Random, image: &[u8], q: &Query, denied: Option<u64>) -> Vec<StepCase> {
    let of = |q: &Query| denying(denied, || expected(image, q));
    let extents = Query { call: Call::Extents, ..q.clone() };
    let chain = if q.call == Call::Read { of(&extents) } else { of(q) };
    let e = Rc::new(of(q));
    // Of one that is refused it isn't known; but no sector of the chain has more extents, and no other more bytes.
    let slots = if chain.values.answer == 0 { chain.full } else { 257 * chain.sectors.len() };
    let room = if e.values.answer == 0 { e.full } else { 2048 * e.sectors.len() };
    let mut sizes = vec![(slots + random.below(3), room + random.below(80), Wanted::All)];
    if q.call == Call::Read {
        for places in [chain.full, chain.full.saturating_sub(1), random.below(chain.full + 8), 0] {
            let full = full_behind(image, q, &chain.sectors, denied, places);
            sizes.push((places, room, full.map_or(Wanted::All, Wanted::NoSlot)));
        }
    }
    if q.call == Call::Read && e.values.answer == 0 {
        sizes.push((chain.full, e.full, Wanted::All));
        if e.full > 0 {
            sizes.push((chain.full, e.full - 1, Wanted::NoRoom));
            sizes.push((slots, random.below(e.full), Wanted::NoRoom));
        }
    }
    let most = e.sectors.len() + 2;
    let case = |(slots, room, wanted)| {
        let ask = StepAsk { query: q.with(room, 0), slots, denied, wrong: wrong(random), salt: random.next() as u8, most };
        StepCase { ask, expected: e.clone(), wanted }
    };
    sizes.into_iter().map(case).collect()
}

/// What differs, if anything.
pub fn difference(case: &StepCase, given: &StepGiven) -> Option<String> {
    let (e, got) = (&case.expected, &given.values);
    let told = |what: &str| Some(format!("{what}: answer {} behind {:?}", got.answer, given.wanted));
    if given.held != STEPS_HELD {
        return told(&format!("of the memory, or of a step behind the end, only {:05b} held", given.held));
    }
    if got.count != given.wanted.len() as u64 {
        return told(&format!("a count of {}", got.count));
    }
    match case.wanted {
        Wanted::All if given.wanted != e.sectors => told("another list"),
        Wanted::All if got.answer != e.values.answer => told("another answer"),
        Wanted::All if got.volume != e.values.volume => told("another volume"),
        Wanted::All if got.answer == 0 && got.written != e.values.written => told("other bytes"),
        Wanted::All => None,
        _ if !e.sectors.starts_with(&given.wanted) => told("no front of the list"),
        Wanted::NoSlot(behind) if (got.answer, given.wanted.len()) != (NO_SLOT, behind) => told(&format!("not 7 behind {behind}")),
        Wanted::NoSlot(_) if got.length != 0 => told("bytes before the chain has ended"),
        Wanted::NoRoom if got.answer != NO_ROOM => told("not 5"),
        Wanted::NoRoom if got.length != case.ask.query.room as u64 => told(&format!("{} bytes", got.length)),
        Wanted::NoRoom if e.values.answer == 0 && !e.values.written.starts_with(&got.written) => told("other bytes"),
        _ => None,
    }
}

/// What a case gave beside the one with memory to spare, of the same sectors.
pub fn beside(spare: &StepGiven, case: &StepCase, given: &StepGiven) -> Option<String> {
    if !spare.values.written.starts_with(&given.values.written) {
        return Some("other bytes than with memory to spare".to_string());
    }
    if given.values.answer != NO_ROOM {
        return None;
    }
    // 5 comes with the sector whose bytes pass the room, and not before.
    let ends = spare.arrived.iter().position(|arrived| *arrived > case.ask.query.room as u64).map(|place| place + 1);
    (ends != Some(given.wanted.len())).then(|| format!("refused by 5 behind {} sectors, and not {ends:?}", given.wanted.len()))
}

/// A refused read with less room than the bytes that had arrived by then: 5 comes first.
pub fn sooner(random: &mut Random, spare: &StepCase, given: &StepGiven) -> Option<StepCase> {
    let ask = &spare.ask;
    if given.values.answer == 0 || given.values.length == 0 {
        return None;
    }
    let query = ask.query.with(random.below(given.values.length as usize), 0);
    Some(StepCase { ask: StepAsk { query, ..ask.clone() }, expected: spare.expected.clone(), wanted: Wanted::NoRoom })
}

pub fn told(case: &StepCase, given: &StepGiven) -> String {
    let (ask, e) = (&case.ask, &case.expected);
    format!(
        "{ask:?}\nexpected {} behind {:?}\ngiven {} with {} bytes, which came as {:?}\n",
        e.values.answer, e.sectors, given.values.answer, given.values.length, given.arrived
    )
}
