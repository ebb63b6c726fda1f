//! The figures of a shelf, by a walk over what the original opens, lists and reads on each of its images; and the total of a row, by true numbers.

use super::calls::{Icb, PLACE, PLENTY, Query};
use super::expect::{Expected, Tree, below, is_over, opened};
use super::original::Original;
use super::tally::Counted;
use crate::udf::{AllocationExtentDescriptor, FileEntry, within};
use strandlodge_sys::vault::{BAD_SHELF, OVER_BUDGET, UNLIMITED};

/// The figures of a place: files, directories, bytes, extents, sectors, files and images by their answer numbers, and the longest chain.
const ALL: usize = PLACE / 2;
const FILES: usize = 0;
const DIRECTORIES: usize = 1;
const BYTES: usize = 2;
const EXTENTS: usize = 3;
const SECTORS: usize = 4;
const FILES_BY_ANSWER: usize = 5;
/// The answer numbers that figures have.
const ANSWERS: usize = 17;
const IMAGES_BY_ANSWER: usize = FILES_BY_ANSWER + ANSWERS;
const CHAIN: usize = IMAGES_BY_ANSWER + ANSWERS;

/// The levels of the tree that is surveyed.
pub const LEVELS: u32 = 16;

/// So many paths of an image are surveyed.
const MOST_PATHS: usize = 10_000;

/// True numbers.
type Figures = [u128; ALL];

/// Each figure added, but for the chain, of which the longer counts.
fn add(to: &mut Figures, more: &Figures) {
    for (i, n) in more.iter().enumerate() {
        to[i] = if i == CHAIN { to[i].max(*n) } else { to[i] + n };
    }
}

/// The figures as a place has them: each held at 2^64 - 1, and marked where it passes that.
fn recorded(figures: &Figures) -> Vec<u64> {
    figures.iter().flat_map(|n| u64::try_from(*n).map_or([u64::MAX, 1], |n| [n, 0])).collect()
}

/// The figures that a place stands for: one with a mark is any that passes 2^64 - 1.
fn read(place: &[u64]) -> Figures {
    std::array::from_fn(|i| if place[2 * i + 1] == 0 { place[2 * i].into() } else { 1 << 64 })
}

fn bytes(numbers: &[u64]) -> Vec<u8> {
    numbers.iter().flat_map(|n| n.to_le_bytes()).collect()
}

/// How many images and files a shelf has of each answer number, by the last of its places.
pub fn counts(written: &[u8]) -> Vec<(Counted, u64, u64)> {
    let numbers: Vec<u64> = written.chunks_exact(8).map(|b| u64::from_le_bytes(b.try_into().unwrap())).collect();
    let shelf = &numbers[numbers.len() - PLACE..];
    let by_answer = |what, from: usize| (0..ANSWERS).map(move |n| (what, n as u64, shelf[2 * (from + n)]));
    let all = by_answer(Counted::Images, IMAGES_BY_ANSWER).chain(by_answer(Counted::Files, FILES_BY_ANSWER));
    all.filter(|(_, _, n)| *n > 0).collect()
}

/// An image: its figures, the sectors that they take, the work space of each directory, and what is said of the query.
struct Surveyed {
    figures: Figures,
    asked: Vec<u64>,
    works: Vec<usize>,
    absurd: bool,
    beyond: bool,
}

impl Surveyed {
    /// One that is refused has no other figure.
    fn refused(answer: u64, asked: Vec<u64>) -> Surveyed {
        let mut figures = [0; ALL];
        figures[IMAGES_BY_ANSWER + answer as usize] = 1;
        Surveyed { figures, asked, works: Vec::new(), absurd: false, beyond: false }
    }
}

/// How many continuations the original followed from an entry: those that its own parsers come to on the sectors that it asked for.
fn chain(image: &[u8], asked: &[u64]) -> u128 {
    let bytes = |sectors: &[u64]| sectors.iter().map(|s| &image[*s as usize * 2048..][..2048]).collect::<Vec<_>>().concat();
    let mut entry = FileEntry::parse(&bytes(&asked[..1])).expect("the entry of a file that was read");
    let (mut behind, mut followed) = (1, 0);
    while let Some(next) = entry.continuation.take() {
        let end = behind + (next.length as usize).div_ceil(2048);
        let whole = bytes(&asked[behind..end]);
        let header = AllocationExtentDescriptor::parse(&whole).expect("a continuation that was followed");
        within::area(&mut entry, &whole[24..][..header.length_of_allocation_descriptors as usize]).expect("its area");
        (behind, followed) = (end, followed + 1);
    }
    followed
}

/// A file, by the original's read of it, and where that is answered by its entry.
fn file(o: &mut Original, image: &[u8], icb: Icb, all: &mut Surveyed) {
    let read = o.read(icb);
    let to = &mut all.figures;
    to[FILES] += 1;
    to[SECTORS] += read.asked.len() as u128;
    to[FILES_BY_ANSWER + *read.value.as_ref().err().unwrap_or(&0) as usize] += 1;
    if let Ok(bytes) = read.value {
        let came = o.entry(icb);
        let entry = came.value.expect("a file that was read has an entry");
        to[BYTES] += bytes.len() as u128;
        to[EXTENTS] += Original::extents(&entry).len() as u128;
        to[CHAIN] = to[CHAIN].max(chain(image, &came.asked));
    }
    all.asked.extend(read.asked);
}

/// An image that is opened as the query chooses, and walked as a show of 16 levels in its work space; then its files are read. All of it is lent one budget.
fn surveyed(image: &[u8], q: &Query) -> Surveyed {
    let came = opened(image, q);
    let mut asked = came.asked;
    if is_over(&mut asked, q.most) {
        return Surveyed::refused(OVER_BUDGET, asked);
    }
    let volume = match came.value {
        Err(n) => return Surveyed::refused(n, asked),
        Ok((volume, _)) => volume,
    };
    let (mut o, mut tree) = (Original::new(image, volume), Tree::default());
    let left = if q.most == UNLIMITED { UNLIMITED } else { q.most - asked.len() as u64 };
    let show = Query::showing(volume, LEVELS).with(PLENTY, q.work).lent(left);
    let done = below(&mut o, &show, volume.root, 1, 0, &mut tree);
    asked.extend(tree.asked);
    let refused = done.err().unwrap_or(0);
    let mut all = Surveyed { works: tree.works, ..Surveyed::refused(refused, asked) };
    all.beyond = done == Err(0) || tree.paths > MOST_PATHS;
    if done.is_ok() && !all.beyond {
        all.figures[DIRECTORIES] = (tree.paths - tree.files.len()) as u128;
        for icb in &tree.files {
            file(&mut o, image, *icb, &mut all);
            // The lists of the opening, the tree and the reads so far.
            if is_over(&mut all.asked, q.most) {
                all.figures = Surveyed::refused(OVER_BUDGET, Vec::new()).figures;
                break;
            }
        }
    }
    all.absurd = o.absurd;
    all
}

/// A survey: each image in its place, from the shelf's front, and all of them behind.
pub fn surveying(shelf: &[u8], q: &Query) -> Expected {
    let lengths: u128 = q.shelf.iter().map(|n| u128::from(*n)).sum();
    let numbers = PLACE * (q.shelf.len() + 1);
    if lengths > shelf.len() as u128 || numbers > q.room {
        return Expected::new(BAD_SHELF, Vec::new());
    }
    let (mut row, mut whole, mut from) = (Vec::new(), [0; ALL], 0);
    let mut e = Expected::new(0, Vec::new());
    for n in &q.shelf {
        let end = from + *n as usize;
        let one = surveyed(&shelf[from..end], q);
        row.extend(recorded(&one.figures));
        add(&mut whole, &one.figures);
        e.absurd |= one.absurd;
        e.beyond |= one.beyond;
        e.directories.extend(one.works);
        // A sector of the image is one of the shelf where it stands at a whole number of them.
        e.sectors.extend(one.asked.iter().map(|sector| sector + from as u64 / 2048));
        from = end;
    }
    row.extend(recorded(&whole));
    e.bytes(bytes(&row), numbers, q.room, BAD_SHELF)
}

/// The total of the first places of a row. The whole row is looked at.
pub fn totalling(q: &Query) -> Expected {
    let mut row = q.shelf.clone();
    let places = (row.len() / PLACE) as u64;
    let answer = if q.images < places { 0 } else { BAD_SHELF };
    if answer == 0 {
        let (mut whole, to) = ([0; ALL], PLACE * q.images as usize);
        row[..to].chunks(PLACE).for_each(|place| add(&mut whole, &read(place)));
        row[to..to + PLACE].copy_from_slice(&recorded(&whole));
    }
    let mut e = Expected::new(answer, Vec::new());
    e.values.written = bytes(&row);
    e
}
