//! The list that the program `asker` replays with no Rust at hand: images of the comparison, and queries of the original's own kind, on a
//! volume made by hand. The lines that are stored of it are held to the original with those of the other files.

use super::calls::{Call, Query};
use super::compare::shapes;
use super::damage::damage;
use super::disc::Disc;
use super::queries::{Case, Depth, cases};
use super::random::Random;
use super::volumes;
use super::volumes::Sort;
use std::collections::BTreeMap;
use std::fs;
use std::path::Path;
use strandlodge_sys::asked::{self, BY_HAND, Image, LONGEST};

const SEED: u64 = 2026;
/// What is lent at most: bytes of output and of work space, and slots.
const ROOM: usize = 65536;
const SLOTS: usize = 256;

/// Whether the program can ask it, and the original was asked it as it stands.
fn fits(case: &Case) -> bool {
    let room = if case.query.call == Call::Extents { SLOTS } else { ROOM };
    let sizes = case.query.room <= room && case.query.work <= ROOM && case.query.path.len() < 1000;
    sizes && !case.in_noise && !case.expected.absurd && std::str::from_utf8(&case.query.path).is_ok()
}

/// A sample: of each call and answer some, by turns, until there are enough.
fn sample(random: &mut Random, all: Vec<Case>, most: usize) -> Vec<Case> {
    let mut kinds: BTreeMap<(Call, u64), Vec<Case>> = BTreeMap::new();
    for case in all.into_iter().filter(fits) {
        kinds.entry((case.query.call, case.expected.values.answer)).or_default().push(case);
    }
    let mut chosen = Vec::new();
    while chosen.len() < most && kinds.values().any(|k| !k.is_empty()) {
        for kind in kinds.values_mut().filter(|k| !k.is_empty()) {
            let at = random.below(kind.len());
            chosen.push(kind.swap_remove(at));
        }
    }
    chosen.truncate(most);
    chosen.sort_by_key(|c| c.query.call);
    chosen
}

/// A query as it is stored. What needs no volume is asked of the image as it is opened, and all else of the volume made by hand.
fn stored(q: &Query, length: usize) -> asked::Query {
    let (room, slots) = if q.call == Call::Extents { (0, q.room) } else { (q.room, 0) };
    asked::Query {
        calls: 1 << q.call as u32,
        volume: if q.call == Call::Probe || q.call.opens() { 0 } else { BY_HAND },
        there: length as u32,
        room: room as u32,
        work: q.work as u32,
        slots: slots as u32,
        icb: q.icb.recorded(),
        text: q.path.clone(),
        ..asked::Query::default()
    }
}

#[derive(Default)]
struct List {
    file: Vec<u8>,
    images: usize,
    numbers: BTreeMap<(Call, u64), usize>,
}

impl List {
    fn add(&mut self, name: &str, disc: &Disc, chosen: &[Case]) {
        // Opening and its like come with no volume; the others of an image share theirs.
        let v = chosen.iter().map(|c| c.query.volume).max_by_key(|v| *v != Default::default()).unwrap_or_default();
        let queries = chosen.iter().map(|case| stored(&case.query, disc.image.len())).collect();
        asked::put(&mut self.file, &Image { name: name.into(), bytes: disc.image.clone(), by_hand: vec![v.into()], queries });
        chosen.iter().for_each(|case| *self.numbers.entry((case.query.call, case.expected.values.answer)).or_insert(0) += 1);
        self.images += 1;
    }
}

/// Writes the list into the program's folder: data/replayed.
pub fn write(folder: &Path) -> std::io::Result<()> {
    let mut list = List::default();
    for (i, (name, disc)) in shapes().iter().enumerate().filter(|(_, (_, d))| d.image.len() <= LONGEST) {
        let mut random = Random::new(SEED ^ i as u64);
        let all = cases(&mut random, disc, Depth::All);
        let most = if name.starts_with("open") { 6 } else { 24 };
        list.add(name, disc, &sample(&mut random, all, most));
    }
    for i in 0..80 {
        let mut random = Random::new(SEED << 20 | i);
        let mut disc = volumes::volume(&mut random, Sort::Thrifty);
        if i % 4 > 0 {
            damage(&mut random, &mut disc);
        }
        let all = cases(&mut random, &disc, Depth::Some);
        list.add(&format!("random {i}"), &disc, &sample(&mut random, all, 24));
    }
    fs::create_dir_all(folder.join("data"))?;
    fs::write(folder.join("data/replayed"), &list.file)?;
    println!("{} images, {} bytes; {} queries", list.images, list.file.len(), list.numbers.values().sum::<usize>());
    // Lists of paths, and what came behind them, aren't in it, so that it stays as it is.
    for call in Call::ALL.into_iter().filter(|call| *call < Call::ReadAll) {
        let row: String = (0..8).map(|n| format!("{:>7}", list.numbers.get(&(call, n)).unwrap_or(&0))).collect();
        println!("{:10}{row}", call.name());
    }
    Ok(())
}
