//! Openings and reads a sector at a time, by the archive linked in.

use super::calls::{Call, Values};
use super::lending::{GUARD, Lending};
use super::steps::{StepAsk, StepGiven};
use strandlodge_sys::vault::*;

/// The sector of this number, or a slice of another length where it can't be had.
fn sector(image: &[u8], ask: &StepAsk, number: u64) -> Vec<u8> {
    let at = (number as usize).saturating_mul(2048);
    let there = image.get(at..).and_then(|rest| rest.get(..2048)).filter(|_| ask.denied != Some(number));
    there.map_or_else(|| vec![0x5a; ask.wrong], <[u8]>::to_vec)
}

pub fn given(image: &[u8], ask: &StepAsk) -> StepGiven {
    if ask.query.call == Call::Open { opening(image, ask) } else { reading(image, ask) }
}

fn opening(image: &[u8], ask: &StepAsk) -> StepGiven {
    let mut all = StepGiven::default();
    // SAFETY: what is lent is as long as said, and isn't written to.
    let step = |state, sector: &[u8]| unsafe { vault_opening_step(state, sector.as_ptr(), sector.len()) };
    // SAFETY: nothing is lent.
    let mut state = unsafe { vault_opening_start() };
    // SAFETY: nothing is lent.
    while unsafe { vault_opening_is_wanting(state) } && all.wanted.len() < ask.most {
        // SAFETY: nothing is lent.
        let number = unsafe { vault_opening_wants(state) };
        state = step(state, &sector(image, ask, number));
        all.wanted.push(number);
    }
    let behind = [&image[..2048.min(image.len())], &[]].map(|bytes| step(state, bytes));
    let Opened { answer, count, volume } = state.opened;
    all.values = Values { answer, count, volume: volume.into(), ..Values::default() };
    all.held = 15 | u8::from(behind == [state, state]) << 4;
    all
}

fn reading(image: &[u8], ask: &StepAsk) -> StepGiven {
    let (mut all, q) = (StepGiven::default(), &ask.query);
    let (mut out, mut row) = (Lending::new(q.room, ask.salt), Lending::new(16 * ask.slots, ask.salt));
    let (to, places) = (out.lent(), row.lent().cast::<Extent>());
    // SAFETY: what is lent is as long as said, and apart from each other.
    let step = |state, sector: &[u8]| unsafe { vault_reading_step(state, sector.as_ptr(), sector.len(), places, ask.slots, to, q.room) };
    // SAFETY: as above.
    let mut state = unsafe { vault_reading_start(q.volume.into(), q.icb.into(), places, ask.slots) };
    // SAFETY: nothing is lent.
    while unsafe { vault_reading_is_wanting(state) } && all.wanted.len() < ask.most {
        // SAFETY: nothing is lent.
        let number = unsafe { vault_reading_wants(state) };
        state = step(state, &sector(image, ask, number));
        all.wanted.push(number);
        all.arrived.push(state.length as u64);
    }
    let behind = [&image[..2048.min(image.len())], &[]].map(|bytes| step(state, bytes));
    let n = state.length.min(q.room);
    all.values = Values { answer: state.answer, count: state.count, length: state.length as u64, ..Values::default() };
    all.values.written = out.bytes()[GUARD..GUARD + n].to_vec();
    all.held |= u8::from(out.guarded());
    all.held |= u8::from(out.as_it_came(GUARD + n, GUARD + q.room)) << 1;
    all.held |= u8::from(row.guarded()) << 2;
    all.held |= u8::from(row.bytes()[GUARD..GUARD + 16 * ask.slots].iter().all(|byte| *byte == 0)) << 3;
    all.held |= u8::from(behind == [state, state]) << 4;
    all
}
