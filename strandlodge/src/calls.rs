//! The calls of include/vault.h, wrapped. This module, `parsing` (for include/records.h) and `mapped` are the only ones
//! in the library that contain `unsafe`.
//!
//! Why the calls are sound: the header requires that the lent pieces don't overlap and that their pointers aren't null.
//! A shared slice and the spare room of a mutably borrowed vector can't overlap, nor can the rooms of two vectors. The
//! image and the paths are only read, so one may be a part of the other. The pointer of a slice or vector is never
//! null, even at length 0. In return it is proved that a call reads and writes only within the lengths it is given,
//! keeps no pointer, and accepts any values: any volume and any ICB. The proofs assume that the image doesn't change,
//! which a `&[u8]` promises; lib.rs says what that means for a map of a file.
//!
//! The declarations match the archive only if its version is the declared one. Calls that need no volume check the
//! version first, and every volume comes from one of them.
//!
//! A read that goes one sector at a time is lent the output again and again, and the output may have moved between two
//! steps. Its front, with what has arrived, moves with it. A step writes after that front, and does not read it.
//!
//! Memory lent for writing isn't initialised: it is passed as a pointer, and only what the call says it wrote is looked
//! at. (If the image changes during the call, it may report bytes as written that were gone when it came to copy them.)
#![allow(unsafe_code)]

use crate::answer::{Answer, Answered, Refusal, Refused};
use crate::matching::Matching;
use crate::records::LongAd;
use strandlodge_sys::vault::*;

type Lent = *mut u8;

/// The value, if the answer is 0.
fn answered<T>(answer: u64, sectors: u64, value: T) -> Answered<T> {
    match Refusal::of(answer) {
        None => Ok(Answer { value, sectors }),
        Some(why) => Err(Refused { why, sectors }),
    }
}

/// Lends the spare room of `out`, and makes what was written its content.
fn filled<T>(out: &mut Vec<T>, call: impl FnOnce(*mut T, usize) -> Reply) -> Answered<()> {
    out.clear();
    let room = out.spare_capacity_mut();
    let reply = call(room.as_mut_ptr().cast(), room.len());
    if reply.answer == DONE {
        // SAFETY: a call that is done has written the first `length` items of what was lent, and was lent as many: else it is refused.
        unsafe { out.set_len(reply.length as usize) };
    }
    answered(reply.answer, reply.count, ())
}

/// The spare room of `work`, to be lent. What is written there is never looked at.
fn space(work: &mut Vec<u8>) -> (Lent, usize) {
    work.clear();
    let room = work.spare_capacity_mut();
    (room.as_mut_ptr().cast(), room.len())
}

/// The part of `whole` that a reply names; `at` and the reply's length are 0 if there is none.
fn named(whole: &[u8], at: usize, length: u64) -> &[u8] {
    whole.get(at..).and_then(|rest| rest.get(..length as usize)).unwrap_or_default()
}

/// Panics if an archive of another version was linked: its calls may take other arguments.
fn see_version() {
    // SAFETY: nothing is lent.
    let version = unsafe { vault_version() };
    assert_eq!(version, VERSION, "the archive that was linked is of another version than this crate");
}

/// The bytes from `at` on, each read once, even if the image is a map that someone writes to; `None` if they aren't all
/// there.
pub fn peek<const N: usize>(image: &[u8], at: usize) -> Option<[u8; N]> {
    let from = image.get(at..)?.get(..N)?.as_ptr();
    // SAFETY: N bytes stand there.
    Some(std::array::from_fn(|i| unsafe { from.add(i).read_volatile() }))
}

/// Copies as many of the first bytes as there is room for, each read once, and returns their number.
pub fn copy(from: &[u8], to: &mut [u8]) -> usize {
    let n = from.len().min(to.len());
    for (byte, to) in from[..n].iter().zip(&mut *to) {
        // SAFETY: a byte of the slice.
        *to = unsafe { std::ptr::from_ref(byte).read_volatile() };
    }
    n
}

pub fn probe(image: &[u8]) -> bool {
    see_version();
    // SAFETY: the head of this module; nothing is lent for writing.
    unsafe { vault_probe(image.as_ptr(), image.len()) }
}

/// `how` is the sum of the choices.
pub fn open(image: &[u8], how: u32) -> Answered<Volume> {
    see_version();
    // SAFETY: the head of this module; nothing is lent for writing.
    let opened = unsafe { vault_open(image.as_ptr(), image.len(), how) };
    answered(opened.answer, opened.count, opened.volume)
}

pub fn label(image: &[u8], how: u32, out: &mut Vec<u8>) -> Answered<()> {
    see_version();
    // SAFETY: the head of this module; `room` bytes from `to` on are `out`'s own.
    filled(out, |to, room| unsafe { vault_label(image.as_ptr(), image.len(), how, to, room) })
}

pub fn lookup(volume: Volume, image: &[u8], path: &[u8], matching: Matching, work: &mut Vec<u8>) -> Answered<LongAd> {
    let ((work, w), m) = (space(work), matching.number());
    // SAFETY: the head of this module; `w` bytes from `work` on are the vector's own.
    let found = unsafe { vault_lookup(volume, image.as_ptr(), image.len(), path.as_ptr(), path.len(), m, work, w) };
    answered(found.answer, found.count, LongAd::of_c(found.icb))
}

/// The component at which the lookup is refused with 3; `None` if the path exists.
pub fn failed<'p>(volume: Volume, image: &[u8], path: &'p [u8], matching: Matching, work: &mut Vec<u8>) -> Answered<Option<&'p [u8]>> {
    let ((work, w), m) = (space(work), matching.number());
    let mut at = 0;
    // SAFETY: the head of this module; `w` bytes from `work` on are the vector's own, and `at` is a number of this function's.
    let reply = unsafe { vault_failed(volume, image.as_ptr(), image.len(), path.as_ptr(), path.len(), m, work, w, &mut at) };
    match Refusal::of(reply.answer) {
        Some(Refusal::NotBluray) => Ok(Answer { value: Some(named(path, at, reply.length)), sectors: reply.count }),
        _ => answered(reply.answer, reply.count, None),
    }
}

pub fn list(volume: Volume, image: &[u8], icb: LongAd, out: &mut Vec<u8>, work: &mut Vec<u8>) -> Answered<()> {
    let (work, w) = space(work);
    // SAFETY: the head of this module; `room` bytes from `to` on are `out`'s own, and `w` from `work` on are the other vector's.
    filled(out, |to, room| unsafe { vault_list(volume, image.as_ptr(), image.len(), icb.to_c(), to, room, work, w) })
}

pub fn show(volume: Volume, image: &[u8], levels: u32, most: u64, out: &mut Vec<u8>, work: &mut Vec<u8>) -> Answered<()> {
    let (work, w) = space(work);
    // SAFETY: the head of this module; `room` bytes from `to` on are `out`'s own, and `w` from `work` on are the other vector's.
    filled(out, |to, room| unsafe { vault_show(volume, image.as_ptr(), image.len(), levels, most, to, room, work, w) })
}

pub fn read(volume: Volume, image: &[u8], icb: LongAd, out: &mut Vec<u8>) -> Answered<()> {
    // SAFETY: the head of this module; `room` bytes from `to` on are `out`'s own.
    filled(out, |to, room| unsafe { vault_read(volume, image.as_ptr(), image.len(), icb.to_c(), to, room) })
}

/// How many bytes a read gives.
pub fn measure(volume: Volume, image: &[u8], icb: LongAd) -> Answered<u64> {
    // SAFETY: the head of this module; nothing is lent for writing.
    let reply = unsafe { vault_measure(volume, image.as_ptr(), image.len(), icb.to_c()) };
    answered(reply.answer, reply.count, reply.length)
}

pub fn part(volume: Volume, image: &[u8], icb: LongAd) -> Answered<&[u8]> {
    let mut at = 0;
    // SAFETY: the head of this module; `at` is a number of this function's.
    let reply = unsafe { vault_part(volume, image.as_ptr(), image.len(), icb.to_c(), &mut at) };
    answered(reply.answer, reply.count, named(image, at, reply.length))
}

pub fn extents(volume: Volume, image: &[u8], icb: LongAd, row: &mut Vec<Extent>) -> Answered<()> {
    // SAFETY: the head of this module; `slots` slots from `to` on are `row`'s own.
    filled(row, |to, slots| unsafe { vault_extents(volume, image.as_ptr(), image.len(), icb.to_c(), to, slots) })
}

pub fn runs(volume: Volume, image: &[u8], icb: LongAd, row: &mut Vec<Run>) -> Answered<()> {
    // SAFETY: the head of this module; `slots` slots from `to` on are `row`'s own.
    filled(row, |to, slots| unsafe { vault_runs(volume, image.as_ptr(), image.len(), icb.to_c(), to, slots) })
}

#[cfg(test)]
pub fn read_path(volume: Volume, image: &[u8], path: &[u8], matching: Matching, out: &mut Vec<u8>, work: &mut Vec<u8>) -> Answered<()> {
    let ((work, w), m) = (space(work), matching.number());
    // SAFETY: the head of this module; `room` bytes from `to` on are `out`'s own, and `w` from `work` on are the other vector's.
    filled(out, |to, room| unsafe { vault_read_path(volume, image.as_ptr(), image.len(), path.as_ptr(), path.len(), m, to, room, work, w) })
}

/// The rows for a list of paths: a length and an answer for each.
#[derive(Default)]
pub struct Rows {
    pub lengths: Vec<u64>,
    pub answers: Vec<u32>,
}

/// `paths` are separated by zero bytes. The files read go to `out` one after another, and a length and an answer for
/// each to the rows.
pub fn read_all(
    volume: Volume,
    image: &[u8],
    paths: &[u8],
    matching: Matching,
    out: &mut Vec<u8>,
    rows: &mut Rows,
    work: &mut Vec<u8>,
) -> Answered<()> {
    let ((work, w), m) = (space(work), matching.number());
    let Rows { lengths, answers } = rows;
    lengths.clear();
    answers.clear();
    let (l, a) = (lengths.spare_capacity_mut(), answers.spare_capacity_mut());
    let ((l_at, l), (a_at, a)) = ((l.as_mut_ptr().cast(), l.len()), (a.as_mut_ptr().cast(), a.len()));
    let (from, length) = (paths.as_ptr(), paths.len());
    // SAFETY: the head of this module; `room` bytes from `to` on are `out`'s own, `l` and `a` places those of the rows, and `w` bytes from `work`
    // on those of the other vector.
    let call =
        |to, room| unsafe { vault_read_all(volume, image.as_ptr(), image.len(), from, length, m, to, room, l_at, l, a_at, a, work, w) };
    let answer = filled(out, call)?;
    let items = paths.iter().filter(|byte| **byte == 0).count() + 1;
    // SAFETY: a call that is done has written a place of each row for every path, and there are as many places: else it is refused.
    unsafe {
        lengths.set_len(items);
        answers.set_len(items);
    }
    Ok(answer)
}

/// The row in which the extents of a file wait.
pub type Row = Vec<Extent>;

pub fn opening_start() -> Opening {
    see_version();
    // SAFETY: nothing is lent.
    unsafe { vault_opening_start() }
}

/// The sector wanted; `None` if the opening has ended.
pub fn opening_wants(opening: &Opening) -> Option<u64> {
    // SAFETY: nothing is lent.
    unsafe { vault_opening_is_wanting(*opening).then(|| vault_opening_wants(*opening)) }
}

/// An empty `sector` means that it can't be read.
pub fn opening_step(opening: Opening, sector: &[u8]) -> Opening {
    // SAFETY: the head of this module; nothing is lent for writing.
    unsafe { vault_opening_step(opening, sector.as_ptr(), sector.len()) }
}

/// The result of an opening that has ended.
pub fn opening_ended(opening: &Opening) -> Answered<Volume> {
    let opened = opening.opened;
    answered(opened.answer, opened.count, opened.volume)
}

pub fn reading_start(volume: Volume, icb: LongAd, row: &mut Row) -> Reading {
    // SAFETY: the head of this module; the places are `row`'s own.
    unsafe { vault_reading_start(volume, icb.to_c(), row.as_mut_ptr(), row.len()) }
}

/// The sector wanted; `None` if the read has ended.
pub fn reading_wants(reading: &Reading) -> Option<u64> {
    // SAFETY: nothing is lent.
    unsafe { vault_reading_is_wanting(*reading).then(|| vault_reading_wants(*reading)) }
}

/// An empty `sector` means that it can't be read. `out` holds what has arrived, and at most `most` bytes of its room
/// are lent.
pub fn reading_step(mut reading: Reading, sector: &[u8], row: &mut Row, out: &mut Vec<u8>, most: usize) -> Reading {
    reading.length = out.len();
    let room = out.capacity().min(most);
    // SAFETY: the head of this module; the places are `row`'s own, and `room` bytes are `out`'s own.
    let behind = unsafe { vault_reading_step(reading, sector.as_ptr(), sector.len(), row.as_mut_ptr(), row.len(), out.as_mut_ptr(), room) };
    // SAFETY: a step has written what it says has arrived, behind what had before; and it stays within the room that it was lent.
    unsafe { out.set_len(behind.length) };
    behind
}

/// The result of a read that has ended.
pub fn reading_ended(reading: &Reading) -> Answered<()> {
    answered(reading.answer, reading.count, ())
}

pub fn list_bytes(volume: Volume, bytes: &[u8], out: &mut Vec<u8>) -> Answered<()> {
    // SAFETY: the head of this module; `room` bytes from `to` on are `out`'s own.
    filled(out, |to, room| unsafe { vault_list_bytes(volume, bytes.as_ptr(), bytes.len(), to, room) })
}

/// The entry that a component names in a directory's bytes, and whether it is a directory; `None` if nothing has that
/// name.
pub fn find(volume: Volume, bytes: &[u8], component: &[u8], matching: Matching) -> std::result::Result<Option<(LongAd, bool)>, Refusal> {
    let (from, length, m) = (component.as_ptr(), component.len(), matching.number());
    // SAFETY: the head of this module; nothing is lent for writing.
    let named = unsafe { vault_match(volume, bytes.as_ptr(), bytes.len(), from, length, m) };
    match Refusal::of(named.answer) {
        None => Ok(named.found.then(|| (LongAd::of_c(named.icb), named.directory))),
        Some(why) => Err(why),
    }
}

/// The first component of a path from `at` on, and where it ends; `None` if there is none.
pub fn next_component(path: &[u8], at: usize) -> Option<(&[u8], usize)> {
    // SAFETY: the head of this module; nothing is lent for writing.
    let Component { at, length } = unsafe { vault_next_component(path.as_ptr(), path.len(), at) };
    (length > 0).then(|| (named(path, at, length as u64), at + length))
}

/// Each name is followed by a zero byte.
pub fn write_total(names: &[u8], lengths: &[u64]) -> std::result::Result<u64, Refusal> {
    see_version();
    // SAFETY: the head of this module; nothing is lent for writing.
    let reply = unsafe { vault_write_total(names.as_ptr(), names.len(), lengths.as_ptr(), lengths.len()) };
    Refusal::of(reply.answer).map_or(Ok(reply.sectors), Err)
}

/// Writes the image to the front of what is lent, and returns its sectors.
pub fn write(names: &[u8], lengths: &[u64], staging: &[u8], image: &mut [u8]) -> std::result::Result<u64, Refusal> {
    write_to(names, lengths, staging, image.as_mut_ptr(), image.len())
}

/// Writes the image to a vector that has room for it.
pub fn write_into(names: &[u8], lengths: &[u64], staging: &[u8], image: &mut Vec<u8>) -> std::result::Result<(), Refusal> {
    image.clear();
    let room = image.spare_capacity_mut();
    let sectors = write_to(names, lengths, staging, room.as_mut_ptr().cast(), room.len())?;
    // SAFETY: a call that is done has written so many sectors at the front of what was lent, and was lent as many: else it is refused.
    unsafe { image.set_len(sectors as usize * crate::SECTOR_SIZE as usize) };
    Ok(())
}

fn write_to(names: &[u8], lengths: &[u64], staging: &[u8], image: Lent, room: usize) -> std::result::Result<u64, Refusal> {
    see_version();
    let (n, l, s) = (names.len(), lengths.len(), staging.len());
    // SAFETY: the head of this module; both callers have `room` bytes from `image` on in a mutable borrow.
    let reply = unsafe { vault_write(names.as_ptr(), n, lengths.as_ptr(), l, staging.as_ptr(), s, image, room) };
    Refusal::of(reply.answer).map_or(Ok(reply.sectors), Err)
}

/// Writes the figures of a shelf to the front of `row`, one place for each length and one for all, and returns the
/// answer. Each image has a budget of `most` sectors. The spare room of `work` is the work space.
pub fn survey(shelf: &[u8], lengths: &[u64], how: u32, most: u64, row: &mut [u64], work: &mut Vec<u8>) -> u64 {
    let (work, w) = space(work);
    survey_with(shelf, lengths, how, most, row, work, w)
}

/// The same with a lent work space.
pub fn survey_in(shelf: &[u8], lengths: &[u64], how: u32, most: u64, row: &mut [u64], work: &mut [u8]) -> u64 {
    survey_with(shelf, lengths, how, most, row, work.as_mut_ptr(), work.len())
}

fn survey_with(shelf: &[u8], lengths: &[u64], how: u32, most: u64, row: &mut [u64], work: Lent, w: usize) -> u64 {
    see_version();
    let (l, r) = (lengths.len(), row.len());
    // SAFETY: the head of this module; the row is a mutable borrow, and both callers have `w` bytes from `work` on in another.
    unsafe { vault_survey(shelf.as_ptr(), shelf.len(), lengths.as_ptr(), l, how, most, row.as_mut_ptr(), r, work, w) }
}

/// Writes the total of the first `images` places of a row to the place after them, and returns the answer.
pub fn survey_total(row: &mut [u64], images: usize) -> u64 {
    see_version();
    // SAFETY: the head of this module; the row is a mutable borrow.
    unsafe { vault_survey_total(row.as_mut_ptr(), row.len(), images) }
}
