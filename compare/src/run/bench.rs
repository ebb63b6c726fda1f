//! How long calls take: ours, the original from a Cursor, libudfread where it is installed, and where bytes are moved a copy of as many, in
//! one run and by turns.

use super::calls::{Call, Icb, PLENTY, Query, Volume};
use super::disc::{Disc, Layout};
use super::expect::expected;
use super::original::long;
use super::ours::{Ask, Noise, Ours, Timed};
use super::records::*;
#[cfg(udfread)]
use super::udfread;
use crate::udf::{DirEntry, LongAd, UdfDisc, within};
use std::hint::black_box;
use std::io::Cursor;
use std::time::Instant;
use strandlodge_sys::vault::{AS_WRITTEN, CASE_IGNORED, DONE, HIGHEST, MAPS, NOT_BLURAY, UNAMBIGUOUS};

pub const ROUNDS: usize = 9;
pub const MIB: usize = 1 << 20;

pub struct Row {
    pub name: String,
    pub disc: Disc,
    pub query: Query,
    /// What libudfread goes through.
    #[cfg_attr(not(udfread), allow(dead_code))]
    directories: Vec<Icb>,
    /// Bytes that a copy would move.
    copy: Option<usize>,
    /// The paths of a list are read, or the directories of a show listed, each by a call of its own, and not by one.
    each: bool,
}

impl Row {
    fn timed(&self) -> Timed<'_> {
        if self.each { Timed::Each(&self.query) } else { Timed::Query(&self.query) }
    }
}

/// A directory of n entries, the last of which is asked for. Their names are numbers of so many digits, recorded as `record` has it.
fn entries_of(name: &str, n: usize, digits: usize, record: fn(&[u8]) -> Vec<u8>, call: Call, work: usize) -> Row {
    let mut d = Disc::new(300, 0);
    let (file, _) = d.store(b"one of many", &Layout::of(3));
    let items: Vec<Item> = (0..n).map(|i| Item::new(record(format!("{i:0digits$}").as_bytes()), file, 0)).collect();
    let root = d.store_directory(&items, &[], &Layout::of(0));
    d.finish(root, &name8(b"BENCH"));
    let last = format!("{:0digits$}", n - 1);
    let query = Query { icb: root, ..Query::along(call, d.volume, last.as_bytes()).with(PLENTY, work) };
    Row { name: name.to_string(), disc: d, query, directories: vec![root], copy: None, each: false }
}

/// The same with names of eight letters, in bytes.
pub fn entries(name: &str, n: usize, call: Call, work: usize) -> Row {
    entries_of(name, n, 8, name8, call, work)
}

/// A name in pairs of bytes.
fn pairs(letters: &[u8]) -> Vec<u8> {
    name16(&letters.iter().map(|b| *b as u16).collect::<Vec<u16>>())
}

/// The last of 5,000 looked up.
fn last_of(name: &str, digits: usize, record: fn(&[u8]) -> Vec<u8>) -> Row {
    entries_of(&format!("lookup, last of 5,000, {name}"), 5000, digits, record, Call::Lookup, 2 * MIB)
}

/// The last of 5,000 looked up under another choice of matching.
fn last_as(name: &str, matching: u32) -> Row {
    let mut r = entries(&format!("lookup, last of 5,000, {name}"), 5000, Call::Lookup, MIB);
    r.query.matching = matching;
    r
}

/// A name that none of 5,000 has; it differs from the last one's in its last letter alone.
fn none_of() -> Row {
    let mut r = entries("lookup, none of 5,000", 5000, Call::Lookup, MIB);
    r.query.path = b"0000499x".to_vec();
    r
}

/// Directories inside each other, ten entries each, and the path to the innermost file.
fn nested(depth: usize) -> Row {
    let mut d = Disc::new(300, 0);
    let (file, _) = d.store(b"deep", &Layout::of(3));
    let (mut inner, mut path, mut directories) = (file, String::from("file"), Vec::new());
    for level in 0..depth {
        let name = if level == 0 { "file" } else { "directory" };
        let mut items: Vec<Item> = (0..9).map(|i| Item::new(name8(format!("other {i}").as_bytes()), file, 0)).collect();
        items.push(Item::new(name8(name.as_bytes()), inner, if level == 0 { 0 } else { DIRECTORY }));
        inner = d.store_directory(&items, &[], &Layout::of(0));
        directories.push(inner);
        path = if level == 0 { path } else { format!("directory/{path}") };
    }
    d.finish(inner, &name8(b"BENCH"));
    let query = Query::along(Call::Lookup, d.volume, path.as_bytes()).with(PLENTY, 4096);
    Row { name: format!("lookup, depth {depth}"), disc: d, query, directories, copy: None, each: false }
}

/// An area that goes on elsewhere at once.
fn continued(d: &mut Disc, area: &[u8]) -> Vec<u8> {
    let chain = allocation_extent(area);
    let at = d.take(chain.len().div_ceil(2048) as u32);
    d.put_block(at, &chain);
    descriptor(0, chain.len() as u32, 3, at, 0)
}

/// A file of so many bytes in n extents of one size; descriptors that don't fit its entry stand behind one continuation.
pub fn extents(name: &str, bytes: usize, n: usize) -> Row {
    let mut d = Disc::new(300, 0);
    let each = bytes / n;
    // libudfread takes an extent at block 0 for one that isn't recorded.
    d.take(1);
    let first = d.take((each.div_ceil(2048) * n) as u32);
    let step = each.div_ceil(2048) as u32;
    let data: Vec<u8> = (0..step as usize * n * 2048).map(|i| (i * 131 + (i >> 11)) as u8).collect();
    d.put(d.volume.start as u64 + first as u64, &data);
    let area: Vec<u8> = (0..n as u32).flat_map(|i| descriptor(0, each as u32, 0, first + i * step, 0)).collect();
    let area = if area.len() <= 2048 - 176 { area } else { continued(&mut d, &area) };
    let block = d.take(1);
    d.put_block(block, &Entry { extended: false, flags: 0, information: bytes as u64, attributes: 0, area: &area }.bytes());
    let file = Icb::at(block, 0);
    let root = d.store_directory(&[Item::new(name8(b"file"), file, 0)], &[], &Layout::of(0));
    d.finish(root, &name8(b"BENCH"));
    let query = Query { icb: file, ..Query::along(Call::Read, d.volume, b"file").with(bytes, 0) };
    Row { name: name.to_string(), disc: d, query, directories: vec![root], copy: Some(bytes), each: false }
}

/// The cues of a list, and the bytes of each.
const FORTY: usize = 40;
const CUE: usize = 4096;

/// A directory of n entries, of which forty, evenly among the others, are cues.
fn cues(d: &mut Disc, n: usize) -> (Vec<Item>, Vec<String>) {
    let (other, _) = d.store(b"one of many", &Layout::of(3));
    let (mut items, mut names) = (Vec::new(), Vec::new());
    for i in 0..n {
        let name = format!("{i:08}");
        let is_cue = i % (n / FORTY) == 0 && names.len() < FORTY;
        let file = if is_cue { d.store(&vec![i as u8; CUE], &Layout::of(0)).0 } else { other };
        items.push(Item::new(name8(name.as_bytes()), file, 0));
        names.extend(is_cue.then_some(name));
    }
    (items, names)
}

/// Forty cues of a directory so deep with so many entries, by one call, or by a call for each.
fn forty(name: &str, depth: usize, n: usize, work: usize, each: bool) -> Row {
    let mut d = Disc::new(300, 0);
    let (items, mut paths) = cues(&mut d, n);
    let mut directories = vec![d.store_directory(&items, &[], &Layout::of(0))];
    for _ in 1..depth {
        let mut items: Vec<Item> = (0..9).map(|i| Item::new(name8(format!("other {i}").as_bytes()), directories[0], DIRECTORY)).collect();
        items.push(Item::new(name8(b"directory"), directories[directories.len() - 1], DIRECTORY));
        directories.push(d.store_directory(&items, &[], &Layout::of(0)));
        paths.iter_mut().for_each(|path| path.insert_str(0, "directory/"));
    }
    d.finish(directories[depth - 1], &name8(b"BENCH"));
    let call = if each { "forty calls of read_path" } else { "read_all" };
    let query = Query::list(d.volume, &paths).with(PLENTY, work);
    Row { name: format!("{call}, 40 cues of 4 KiB {name}"), disc: d, query, directories, copy: Some(FORTY * CUE), each }
}

fn among(each: bool) -> Row {
    forty("among 5,000", 1, 5000, MIB / 4, each)
}

fn deep(each: bool) -> Row {
    forty("at depth 8", 8, FORTY, 4096, each)
}

/// The same with more work space than the directories need, all of which each call clears.
fn deep_in_a_mebibyte(each: bool) -> Row {
    forty("at depth 8, work space of 1 MiB", 8, FORTY, MIB, each)
}

/// 5,000 cues in 40 folders, three deep: by one call, or by a listing of each directory.
fn show(each: bool) -> Row {
    const FOLDERS: usize = 40;
    let mut d = Disc::new(300, 0);
    let (cue, _) = d.store(b"a look", &Layout::of(3));
    let (mut directories, mut outer) = (Vec::new(), Vec::new());
    for i in 0..FOLDERS {
        let cues: Vec<Item> = (0..5000 / FOLDERS).map(|n| Item::new(name8(format!("{i:03}{n:05}").as_bytes()), cue, 0)).collect();
        let folder = d.store_directory(&cues, &[], &Layout::of(0));
        directories.push(folder);
        outer.push(Item::new(name8(format!("folder {i}").as_bytes()), folder, DIRECTORY));
    }
    let mut top = Vec::new();
    for (i, folders) in outer.chunks(10).enumerate() {
        let act = d.store_directory(folders, &[], &Layout::of(0));
        directories.push(act);
        top.push(Item::new(name8(format!("act {i}").as_bytes()), act, DIRECTORY));
    }
    let root = d.store_directory(&top, &[], &Layout::of(0));
    directories.push(root);
    d.finish(root, &name8(b"BENCH"));
    let name = if each { "a list call for each directory" } else { "show" };
    let query = Query::showing(d.volume, 3).with(PLENTY, 16384);
    Row { name: format!("{name}, 5,000 cues in 40 folders, three deep"), disc: d, query, directories, copy: None, each }
}

/// The same, surveyed: the original lists each directory and reads each cue.
fn survey() -> Row {
    let r = show(false);
    let query = Query::survey(0, &[r.disc.image.len() as u64]).with(PLENTY, r.query.work);
    Row { name: "survey, 5,000 cues in 40 folders, three deep".to_string(), query, ..r }
}

/// A file measured; the original has no call for it but its read.
fn measured(r: Row) -> Row {
    Row { name: r.name.replace("read", "measure"), query: Query { call: Call::Measure, ..r.query }, copy: None, ..r }
}

/// The original's listing of each directory of a show, and its read of each file.
fn survey_each(disc: &mut UdfDisc<Cursor<&[u8]>>, icb: LongAd) -> usize {
    let Ok(entries) = disc.read_directory(icb) else { return 0 };
    let one = |e: &DirEntry| if e.is_directory { survey_each(disc, e.icb) } else { disc.read_file(e.icb).map_or(0, |bytes| bytes.len()) };
    entries.iter().map(one).sum()
}

/// The original's listing of each directory of a show.
fn list_each(disc: &mut UdfDisc<Cursor<&[u8]>>, icb: LongAd) -> usize {
    let Ok(entries) = disc.read_directory(icb) else { return 0 };
    entries.iter().map(|e| if e.is_directory { 1 + list_each(disc, e.icb) } else { 1 }).sum()
}

fn open() -> Row {
    let r = nested(1);
    Row { name: "open".to_string(), query: Query::of(Call::Open, r.query.volume), ..r }
}

/// The same by the highest sequence numbers; the original's time is that of its own opening.
fn open_by_the_highest() -> Row {
    let r = open();
    Row { name: "open, by the highest numbers".to_string(), query: Query { how: HIGHEST, ..r.query.clone() }, ..r }
}

/// A row with bodies checked, each of which has its CRC. The original's time is that of the same call without.
fn checked(r: Row) -> Row {
    Row { name: format!("{}, checked", r.name), query: r.query.checked(), ..r }
}

/// A row on the same disc with a table of one map, through it: each reference is 0 there, and so is the partition's number. The original's time is
/// that of the same call, which looks at no map.
fn mapped(r: Row) -> Row {
    let mut r = Row { name: format!("{}, through a map", r.name), ..r };
    let logical = &mut r.disc.image[33 * 2048..34 * 2048];
    put32(logical, 264, 6);
    put32(logical, 268, 1);
    logical[440..446].copy_from_slice(&map(1, 0));
    let v = r.query.volume;
    r.query.how |= MAPS;
    r.query.volume = Volume { maps: 1, volumes: [1, 0, 0, 0], starts: [v.start, 0, 0, 0], ..v };
    r
}

/// The rows, each made when its turn comes: some take much memory.
fn rows() -> Vec<Box<dyn FnOnce() -> Row>> {
    let mut all: Vec<Box<dyn FnOnce() -> Row>> = vec![
        Box::new(open),
        Box::new(open_by_the_highest),
        Box::new(|| checked(open())),
        Box::new(|| mapped(open())),
        Box::new(|| nested(1)),
        Box::new(|| nested(8)),
        Box::new(|| mapped(nested(8))),
        Box::new(|| entries("lookup, last of 5,000", 5000, Call::Lookup, MIB)),
        Box::new(|| last_of("in pairs of bytes", 8, pairs)),
        Box::new(|| last_of("of 100 letters", 100, name8)),
        Box::new(|| last_of("of 100 letters in pairs of bytes", 100, pairs)),
        Box::new(none_of),
        Box::new(|| last_as("as written", AS_WRITTEN)),
        Box::new(|| last_as("unambiguous", UNAMBIGUOUS)),
        Box::new(|| checked(entries("lookup, last of 5,000", 5000, Call::Lookup, MIB))),
        Box::new(|| mapped(entries("lookup, last of 5,000", 5000, Call::Lookup, MIB))),
        Box::new(|| entries("list, 5,000 entries", 5000, Call::List, MIB)),
        Box::new(|| checked(entries("list, 5,000 entries", 5000, Call::List, MIB))),
        Box::new(|| extents("read, 4 KiB", 4096, 1)),
        Box::new(|| mapped(extents("read, 4 KiB", 4096, 1))),
        Box::new(|| mapped(extents("read, 100,000 bytes in 1000 extents", 100_000, 1000))),
        Box::new(|| extents("read, 256 MiB in one extent", 256 * MIB, 1)),
        Box::new(|| extents("read, 256 MiB in 4,096 extents", 256 * MIB, 4096)),
        Box::new(|| measured(extents("read, 4 KiB", 4096, 1))),
        Box::new(|| measured(extents("read, 256 MiB in one extent", 256 * MIB, 1))),
        Box::new(|| measured(extents("read, 256 MiB in 4,096 extents", 256 * MIB, 4096))),
        Box::new(|| among(false)),
        Box::new(|| among(true)),
        Box::new(|| deep(false)),
        Box::new(|| deep(true)),
        Box::new(|| deep_in_a_mebibyte(false)),
        Box::new(|| deep_in_a_mebibyte(true)),
        Box::new(|| show(false)),
        Box::new(|| show(true)),
        Box::new(survey),
    ];
    for n in [10, 100, 1000, 10_000, 100_000] {
        all.push(Box::new(move || entries(&format!("list, {n} entries"), n, Call::List, n * 64)));
    }
    for n in [1, 10, 100, 1000, 10_000, 100_000] {
        let s = if n == 1 { "" } else { "s" };
        all.push(Box::new(move || extents(&format!("read, 100,000 bytes in {n} extent{s}"), 100_000, n)));
    }
    for kib in [4, 64, 1024, 65536] {
        all.push(Box::new(move || entries(&format!("lookup in work space of {kib} KiB"), 50, Call::Lookup, kib << 10)));
    }
    all
}

/// The original, so many times over.
pub fn original(image: &[u8], q: &Query, times: u32) -> u64 {
    let mut disc = within::disc(Cursor::new(image), q.volume.start, q.volume.partition, long(q.volume.root));
    let path = std::str::from_utf8(&q.path).unwrap();
    let began = Instant::now();
    for _ in 0..times {
        match q.call {
            Call::Open => drop(black_box(UdfDisc::open(Cursor::new(image)))),
            // The original has one choice: for another its listing of the root is searched.
            Call::Lookup if q.matching != CASE_IGNORED => {
                let listed = disc.read_directory(long(q.volume.root));
                drop(black_box(listed.map(|entries| entries.iter().filter(|e| e.name.eq_ignore_ascii_case(path)).count())));
            }
            Call::Lookup => drop(black_box(disc.lookup(path))),
            Call::List => drop(black_box(disc.read_directory(long(q.icb)))),
            Call::Show => drop(black_box(list_each(&mut disc, long(q.volume.root)))),
            // Opened as a survey opens it.
            Call::Survey => {
                let opened = UdfDisc::open(Cursor::new(image));
                drop(black_box(opened.map(|mut disc| {
                    let root = disc.root_directory_icb;
                    survey_each(&mut disc, root)
                })));
            }
            Call::ReadAll => path.split('\0').for_each(|path| drop(black_box(disc.read_path(path)))),
            _ => drop(black_box(disc.read_file(long(q.icb)))),
        }
    }
    began.elapsed().as_nanos() as u64
}

/// The middle of some times, with the least and the most, in microseconds for each call.
pub struct Spread(pub f64, f64, f64);

pub fn spread(mut times: Vec<f64>) -> Spread {
    times.sort_by(f64::total_cmp);
    Spread(times[times.len() / 2], times[0], times[times.len() - 1])
}

impl std::fmt::Display for Spread {
    fn fmt(&self, f: &mut std::fmt::Formatter) -> std::fmt::Result {
        write!(f, "{:.1} ({:.1} to {:.1})", self.0, self.1, self.2)
    }
}

/// libudfread's time, where it is installed.
#[cfg(udfread)]
fn other(r: &Row, bytes: &[u8], times: u32) -> Option<u64> {
    if matches!(r.query.call, Call::ReadAll | Call::Show | Call::Measure | Call::Survey) {
        return None;
    }
    udfread::time(&r.disc.image, &r.query, bytes, times)
}

#[cfg(not(udfread))]
fn other(_: &Row, _: &[u8], _: u32) -> Option<u64> {
    None
}

/// Two cells of the table: another's time, and ours in relation to it.
fn beside(mine: &Spread, times: Vec<f64>) -> String {
    if times.is_empty() {
        return " | |".to_string();
    }
    let theirs = spread(times);
    format!(" {theirs} | {:.2} |", mine.0 / theirs.0)
}

fn row(ours: &mut dyn Ours, mut r: Row) -> std::io::Result<String> {
    #[cfg(udfread)]
    udfread::dress(&mut r.disc, &r.directories);
    if r.query.is_checked() {
        r.disc.seal();
    }
    let e = expected(&r.disc.image, &r.query);
    r.query.room = if r.query.call.has_room() { e.full } else { 0 };
    r.query.work = if r.query.call.has_work() { r.query.work } else { 0 };
    let noise = Noise::Shifted(1);
    ours.load(&r.disc.image, noise);
    // What is timed is right.
    let given = ours.answers(&[Ask { query: &r.query, kept: None, salt: 1 }])?;
    assert!(given[0].values == e.values && [DONE, NOT_BLURAY].contains(&e.values.answer), "{}: another answer than the original's", r.name);
    let once = ours.time(r.timed(), 1)?.max(original(&r.disc.image, &r.query, 1)).max(1);
    // About a tenth of a second for each side in each round.
    let times = (100_000_000 / once).clamp(1, 20_000) as u32;
    let (mut mine, mut theirs, mut others, mut copies) = (Vec::new(), Vec::new(), Vec::new(), Vec::new());
    let each = |nanoseconds: u64| nanoseconds as f64 / times as f64 / 1000.0;
    for _ in 0..ROUNDS {
        mine.push(each(ours.time(r.timed(), times)?));
        theirs.push(each(original(&r.disc.image, &r.query, times)));
        if e.values.answer == DONE {
            others.extend(other(&r, &e.values.written, times).map(each));
        }
        if let Some(n) = r.copy {
            copies.push(each(ours.time(Timed::Copy(n), times)?));
        }
    }
    let mine = spread(mine);
    Ok(format!("| {} | {mine} |{}{}{}", r.name, beside(&mine, theirs), beside(&mine, others), beside(&mine, copies)))
}

/// A table of microseconds: the middle of nine rounds, with the least and the most. Of the rows only those with these words in their names.
pub fn run(ours: &mut dyn Ours, emulated: bool, words: &str) -> std::io::Result<()> {
    if emulated {
        println!(
            "This machine is {}: ours runs under an emulator here, and its figures say nothing of its speed.\n",
            std::env::consts::ARCH
        );
    }
    println!("| call | ours, µs | original, µs | ours / original | libudfread, µs | ours / libudfread | copy, µs | ours / copy |");
    println!("|---|---|---|---|---|---|---|---|");
    for r in rows().into_iter().map(|make| make()).filter(|r| r.name.contains(words)) {
        println!("{}", row(ours, r)?);
    }
    Ok(())
}
