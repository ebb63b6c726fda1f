//! Volumes at random: nested directories, all kinds of areas, chains, names of both widths, sequences in any order.

use super::calls::Icb;
use super::disc::{Disc, Layout, contents};
use super::random::Random;
use super::records::*;

/// What a volume is for.
#[derive(Clone, Copy, PartialEq)]
pub enum Sort {
    Usual,
    /// For the list that is kept: short, and mostly zero.
    Thrifty,
    /// Large directories with names of one or two letters, so that many of them are equal, or equal but for case.
    Meeting,
}

/// Names come from few letters, so that they meet.
const LETTERS: [u16; 18] =
    [0x41, 0x61, 0x42, 0x62, 0x5a, 0x7a, 0x30, 0x2e, 0x20, 0x2f, 0xe9, 0xc9, 0xdf, 0x3042, 0xd83d, 0xdc00, 0x212a, 0xffff];

fn name(random: &mut Random) -> Vec<u8> {
    match random.below(40) {
        0 => vec![],
        1 => vec![0],
        2 => random.bytes(3),
        3 => name8(&random.bytes(20)),
        4 => [name8(b"long"), vec![0x62; random.between(0, 249)]].concat(),
        n if n % 3 == 0 => {
            let length = random.between(0, 6);
            name16(&(0..length).map(|_| *random.pick(&LETTERS)).collect::<Vec<_>>())
        }
        _ => {
            let length = random.between(1, 5);
            name8(&(0..length).map(|_| *random.pick(&LETTERS[..13]) as u8).collect::<Vec<_>>())
        }
    }
}

/// A name with the compression id of a deleted one, and any bytes behind it.
fn deleted_name(random: &mut Random) -> Vec<u8> {
    let n = random.below(6);
    [vec![*random.pick(&[254, 255])], random.bytes(n)].concat()
}

/// A name that others of its directory may have, in the same letters or in the other case, recorded in either width.
fn meeting_name(random: &mut Random) -> Vec<u8> {
    let letters: Vec<u16> = (0..random.between(1, 2)).map(|_| *random.pick(&[0x41, 0x61, 0x42, 0x62, 0x5a, 0x7a, 0xe9, 0xc9])).collect();
    match random.once_in(3) {
        true => name16(&letters),
        false => name8(&letters.iter().map(|letter| *letter as u8).collect::<Vec<_>>()),
    }
}

fn recorded_name(random: &mut Random, sort: Sort) -> Vec<u8> {
    match sort {
        Sort::Meeting => meeting_name(random),
        Sort::Usual if random.once_in(30) => deleted_name(random),
        // Not in the list that is kept, which is to stay as it is.
        Sort::Usual | Sort::Thrifty => name(random),
    }
}

/// A layout at random; most are plain enough to be read.
pub fn layout(random: &mut Random, number: u16) -> Layout {
    let kind = *random.pick(&[0, 0, 1, 2, 3, 3]);
    let mut layout = Layout { extended: random.once_in(2), ..Layout::of(kind) };
    if random.once_in(3) {
        layout.attributes = random.below(120) * 4;
    }
    if random.once_in(2) {
        layout.cuts = (0..random.below(6)).map(|_| *random.pick(&[1, 38, 100, 2047, 2048, 2049, 3000])).collect();
    }
    if random.once_in(3) {
        layout.per_area = random.between(1, 3);
        layout.slack = *random.pick(&[0, 0, 1, 2000, 4096]);
    }
    if kind < 3 && random.once_in(6) {
        let extent_type = random.below(4) as u8;
        let length = *random.pick(&[0, 1, 2048, 5000, 0x3fff_ffff]);
        let partition = if random.once_in(3) { number ^ 1 } else { number };
        layout.behind.push(descriptor(kind, length, extent_type, random.below(200) as u32, partition));
    }
    layout
}

/// How long an information length is said to be, once in a while.
fn odd_information(random: &mut Random, n: usize) -> Option<u64> {
    random.once_in(8).then(|| match random.below(4) {
        0 => random.below(n + 1) as u64,
        1 => n as u64 + random.below(5000) as u64,
        2 => random.next() >> random.below(64),
        _ => 0,
    })
}

fn file(random: &mut Random, disc: &mut Disc, sort: Sort) -> Icb {
    let n = match random.below(8) {
        0 => 0,
        1 => random.between(1, 50),
        2 => 2048 * random.between(1, 3) + random.below(3) - 1,
        3 if sort != Sort::Thrifty => random.below(20_000),
        _ => random.below(4000),
    };
    let bytes = contents(random, n, sort == Sort::Thrifty);
    let layout = Layout { information: odd_information(random, n), ..layout(random, disc.volume.partition) };
    disc.store(&bytes, &layout).0
}

pub fn directory(random: &mut Random, disc: &mut Disc, path: &str, depth: usize, sort: Sort) -> Icb {
    let many = if random.once_in(4) || sort == Sort::Meeting { 12 } else { 5 };
    let mut items = Vec::new();
    if random.once_in(2) {
        items.push(Item::new(vec![], disc.volume.root, PARENT | DIRECTORY));
    }
    for _ in 0..random.below(many) {
        let recorded = recorded_name(random, sort);
        let here = format!("{path}{}", spoken(&recorded));
        disc.path(here.as_bytes());
        let inner = depth > 0 && random.below(10) < 4;
        let icb = match random.below(12) {
            // Two names for one thing, and a name for nothing.
            0 if !disc.icbs.is_empty() => *random.pick(&disc.icbs),
            1 => Icb { length: random.odd() as u32 & 0x3fff_ffff, block: random.below(300) as u32, ..Icb::default() },
            _ if inner => directory(random, disc, &format!("{here}/"), depth - 1, sort),
            _ => file(random, disc, sort),
        };
        let mut c = if inner { DIRECTORY } else { 0 };
        if random.once_in(if sort == Sort::Meeting { 4 } else { 12 }) {
            c ^= *random.pick(&[DELETED, PARENT, DIRECTORY, 1, 0x10]);
        }
        let uses = if random.once_in(8) { random.below(30) } else { 0 };
        items.push(Item { uses, ..Item::new(recorded, icb, c) });
    }
    let tail = if random.once_in(6) { vec![0; random.below(45)] } else { vec![] };
    let mut layout = layout(random, disc.volume.partition);
    // An extent that can't be read, behind the last, is seldom wanted under a directory: it hides what is below.
    if !random.once_in(10) {
        layout.behind.clear();
    }
    disc.store_directory(&items, &tail, &layout)
}

/// The main sequence: the descriptors in any order, some of them twice, with others in between.
fn sequence(random: &mut Random, disc: &Disc, file_set: Icb, thrifty: bool) -> Vec<Vec<u8>> {
    let v = disc.volume;
    let mut label = name(random);
    if random.once_in(3) {
        label.truncate(31);
    }
    let mut all =
        vec![primary(&field(&label, 32)), logical(&field(&name8(b"volume"), 128), 2048, file_set), partition(v.partition, v.start, 1000)];
    while random.once_in(3) {
        all.push(match random.below(4) {
            0 => primary(&field(&name8(b"again"), 32)),
            1 => partition(v.partition, v.start, 0),
            2 => logical(&field(&name(random), 128), 2048, file_set),
            _ => tagged(*random.pick(&[2, 3, 4, 7, 9, 256, 261]), 64),
        });
        let (i, j) = (random.below(all.len()), random.below(all.len()));
        all.swap(i, j);
    }
    // Not in the list that is kept, which is to stay as it is.
    if !thrifty && random.once_in(2) {
        numbered(random, &mut all);
    }
    if random.once_in(6) {
        all.insert(random.below(all.len()), random.bytes(40));
    }
    if !random.once_in(5) {
        all.push(tagged(8, 512));
    }
    all
}

/// Gives the descriptors sequence numbers at random, out of few, and some of them a twin that says something else: more of each kind, of which
/// one counts by its number.
fn numbered(random: &mut Random, all: &mut Vec<Vec<u8>>) {
    for _ in 0..random.below(4) {
        let mut twin = random.pick(all).clone();
        match u16::from_le_bytes([twin[0], twin[1]]) {
            1 => twin[24..56].copy_from_slice(&field(&name8(b"twin"), 32)),
            5 => put32(&mut twin, 188, random.below(300) as u32),
            6 => put32(&mut twin, 212, *random.pick(&[512, 2048, 4096])),
            _ => {}
        }
        all.insert(random.below(all.len() + 1), twin);
    }
    for one in all {
        put32(one, 16, *random.pick(&[0, 1, 2, 2, 3, 256, u32::MAX]));
    }
}

pub fn volume(random: &mut Random, sort: Sort) -> Disc {
    let start = match random.below(10) {
        0 => random.below(16) as u32,
        1 => random.between(200, 300) as u32,
        2 if sort != Sort::Thrifty => random.between(300, 1200) as u32,
        _ => 40,
    };
    let number = *random.pick(&[0, 0, 1, 5, 255, 256, 32768, 65535]);
    let mut disc = Disc::new(start, number);
    let depth = *random.pick(&[1, 2, 3, 8]);
    let root = directory(random, &mut disc, "", depth, sort);
    let recognitions: [[&[u8; 5]; 3]; 3] = [[b"BEA01", b"NSR02", b"TEA01"], [b"BEA01", b"NSR03", b"TEA01"], [b"CD001", b"BEA01", b"NSR03"]];
    let ids = random.pick(&recognitions);
    disc.recognise(ids);
    let file_set = disc.put_file_set(root);
    let descriptors = sequence(random, &disc, file_set, sort == Sort::Thrifty);
    let more = if random.once_in(4) { random.below(2048) as u32 } else { 0 };
    disc.sequence(30 + random.below(3) as u64, &descriptors, more);
    disc.icbs.push(root);
    disc.icbs.push(file_set);
    disc
}
