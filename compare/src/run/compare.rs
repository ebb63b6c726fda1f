//! The comparison: images made, asked about on both sides, and held to each other.

use super::aborts;
use super::calls::{Call, Choice, Given, HELD, Query};
use super::damage::damage;
use super::disc::Disc;
use super::expect::Expected;
use super::ours::{Ask, Noise, Ours};
use super::queries::{
    Case, Depth, cases, checked, chosen, mapped, matched, measured, shelved, shown as shows, stacked, stepped, surveyed, totals,
};
use super::random::Random;
use super::raw::{RAW_HELD, RawAsk, RawCall, RawGiven, shown};
use super::raw_cases::{RawCase, batch};
use super::steps::{self, StepAsk, StepCase};
use super::tally::{Counted, PARSED, Row, Tally};
use super::volumes::Sort;
use super::{
    shapes_bodies, shapes_deleted, shapes_directories, shapes_files, shapes_mapped, shapes_matching, shapes_opening, shapes_prevailing,
    shapes_steps, shapes_trees,
};
use super::{sparse, volumes, volumes_mapped};
use std::panic::{AssertUnwindSafe, catch_unwind};
use std::path::{Path, PathBuf};
use strandlodge_sys::vault::{AMBIGUOUS, BAD_CRC, BAD_SHELF, OVER_BUDGET, TOO_DEEP, TOO_MANY};

/// So many absurd information lengths are tried on the original: a process each.
const CHILDREN: u64 = 60;

pub fn shapes() -> Vec<(String, Disc)> {
    let mut all = shapes_opening::shapes();
    all.extend(shapes_files::shapes());
    all.extend(shapes_directories::shapes());
    all.extend(shapes_deleted::shapes());
    all
}

/// What is asked of an image.
#[derive(Clone, Copy, PartialEq)]
pub enum Asked {
    /// Every call, by each choice, without bodies checked.
    Unchecked,
    /// Every call with bodies checked, and some without.
    Checked,
    /// Every call through maps, with bodies checked or not, and some without maps.
    Mapped,
}

pub struct Comparison {
    pub ours: Box<dyn Ours>,
    pub seed: u64,
    /// So many mismatches are enough to look at.
    pub enough: u64,
    pub tally: Tally,
    /// For the raw records alone: the images are the same with them and without.
    random: Random,
    /// For the other choices of matching alone: what is asked under the original's is the same with them and without.
    matchings: Random,
    /// The same for the images whose bodies are checked.
    bodies: Random,
    /// And for those that are read through maps.
    maps: Random,
    /// And for lists of paths.
    stacks: Random,
    /// And for whole shows.
    shows: Random,
    /// And for what is read a sector at a time.
    drives: Random,
    /// And for surveys.
    surveys: Random,
    /// Images that weren't on a shelf yet: trees, and those at random.
    shelf: Vec<Disc>,
}

impl Comparison {
    pub fn new(ours: Box<dyn Ours>, seed: u64, enough: u64) -> Comparison {
        let random = Random::new(seed ^ 0x7261_7773);
        let matchings = Random::new(seed ^ 0x6d61_7463);
        let bodies = Random::new(seed ^ 0x626f_6469);
        let maps = Random::new(seed ^ 0x6d61_7073);
        let stacks = Random::new(seed ^ 0x7374_6163);
        let whole = Random::new(seed ^ 0x7368_6f77);
        let drives = Random::new(seed ^ 0x6472_6976);
        let surveys = Random::new(seed ^ 0x7375_7276);
        let (tally, shelf) = (Tally::new(), Vec::new());
        Comparison { ours, seed, enough, tally, random, matchings, bodies, maps, stacks, shows: whole, drives, surveys, shelf }
    }

    /// Every shape first, and then volumes at random, whole and damaged, until the time is over.
    pub fn run(&mut self, seconds: u64) {
        // Those of the choice aren't in the list that is replayed, which is to stay as it is.
        for (i, (name, disc)) in shapes().iter().chain(&shapes_prevailing::shapes()).enumerate() {
            self.image(name, disc, Asked::Unchecked, Depth::All, Random::new(self.seed ^ i as u64));
            self.raws();
            if self.is_over() {
                return;
            }
        }
        for (name, disc) in shapes_steps::shapes() {
            let random = Random::new(self.drives.next());
            self.image(&name, &disc, Asked::Unchecked, Depth::All, random);
            if self.is_over() {
                return;
            }
        }
        for (name, disc) in shapes_matching::shapes() {
            let random = Random::new(self.matchings.next());
            self.image(&name, &disc, Asked::Unchecked, Depth::All, random);
            if self.is_over() {
                return;
            }
        }
        self.trees();
        self.sealed_shapes(seconds);
        self.mapped_shapes(seconds);
        let mut number = 0u64;
        while self.tally.seconds() < seconds && !self.is_over() {
            number += 1;
            let mut random = Random::new(self.seed.wrapping_mul(0x2545_f491_4f6c_dd1d) ^ number);
            let whole = volumes::volume(&mut random, Sort::Usual);
            for part in 0..6 {
                if self.is_over() {
                    return;
                }
                let mut disc = whole.clone();
                if part > 0 {
                    damage(&mut random, &mut disc);
                }
                let more = Random::new(random.next());
                self.image(&format!("random {number}.{part}"), &disc, Asked::Unchecked, Depth::Some, more);
                self.raws();
            }
            self.meeting(number);
            self.sealed(number);
            self.mapped(number);
            self.shelves(&format!("random {number}"));
        }
    }

    /// The shapes of trees, in each of the ways, and on shelves.
    fn trees(&mut self) {
        for (name, disc) in shapes_trees::shapes() {
            for asked in [Asked::Unchecked, Asked::Checked, Asked::Mapped] {
                if self.is_over() {
                    return;
                }
                let random = Random::new(self.surveys.next());
                self.image(&name, &disc, asked, Depth::All, random);
            }
            self.shelf.push(disc);
        }
        self.shelves("trees");
    }

    /// The images since the last time, on shelves of two or three; and totals of rows by hand.
    fn shelves(&mut self, name: &str) {
        let mut images = std::mem::take(&mut self.shelf);
        let random = &mut self.surveys;
        (1..images.len()).rev().for_each(|i| images.swap(i, random.below(i + 1)));
        let n = random.between(2, 3);
        for (i, few) in images.chunks(n).enumerate().filter(|(_, few)| few.len() == n) {
            if self.is_over() {
                return;
            }
            let lengths: Vec<u64> = few.iter().map(|disc| disc.image.len() as u64).collect();
            let mut shelf = few[0].clone();
            few[1..].iter().for_each(|disc| shelf.image.extend(&disc.image));
            let random = &mut self.surveys;
            let made = catch_unwind(AssertUnwindSafe(|| {
                let mut all = shelved(random, &shelf.image, &lengths);
                all.extend(totals(random));
                all
            }));
            let random = Random::new(self.surveys.next());
            self.cases(&format!("{name}, shelf {i}"), &shelf, made.ok(), random);
        }
    }

    /// The shapes of maps; and those of opening and of files, through maps that most of them don't have.
    fn mapped_shapes(&mut self, seconds: u64) {
        for (name, disc) in shapes_mapped::shapes() {
            self.through_maps(&name, &disc, Depth::All);
        }
        for (name, disc) in shapes_opening::shapes().into_iter().chain(shapes_files::shapes()).chain(shapes_prevailing::shapes()) {
            if self.tally.seconds() * 8 > seconds * 7 {
                return;
            }
            self.through_maps(&format!("{name}, through maps"), &disc, Depth::Some);
        }
    }

    /// A volume with maps: whole, damaged, and with right CRCs, of which some are ruined.
    fn mapped(&mut self, number: u64) {
        let mut random = Random::new(self.maps.next());
        let whole = volumes_mapped::volume(&mut random);
        for part in ["mapped", "mapped, damaged", "mapped, damaged again", "mapped, sealed", "mapped, ruined"] {
            let mut disc = whole.clone();
            if part.contains("damaged") {
                damage(&mut random, &mut disc);
            }
            if !part.contains("damaged") && part != "mapped" {
                disc.seal_oddly(&mut random);
            }
            if part.contains("ruined") {
                disc.ruin_any(&mut random);
            }
            self.through_maps(&format!("random {number}, {part}"), &disc, Depth::Some);
        }
    }

    /// Asks an image through maps.
    fn through_maps(&mut self, name: &str, disc: &Disc, depth: Depth) {
        if !self.is_over() {
            let random = Random::new(self.maps.next());
            self.image(name, disc, Asked::Mapped, depth, random);
        }
    }

    /// A volume whose names meet, whole and then damaged.
    fn meeting(&mut self, number: u64) {
        let mut random = Random::new(self.matchings.next());
        let mut disc = volumes::volume(&mut random, Sort::Meeting);
        for part in ["meeting", "meeting, damaged"] {
            if self.is_over() {
                return;
            }
            let more = Random::new(random.next());
            self.image(&format!("random {number}, {part}"), &disc, Asked::Unchecked, Depth::Some, more);
            damage(&mut random, &mut disc);
        }
    }

    /// The shapes of wrong bodies; and every other shape with right CRCs, and with one of its descriptors ruined, as long as a quarter of the time
    /// is left for volumes at random.
    fn sealed_shapes(&mut self, seconds: u64) {
        for (name, disc) in shapes_bodies::shapes() {
            self.checked(&name, &disc, Depth::All);
        }
        for (name, mut disc) in shapes_steps::shapes() {
            disc.seal();
            self.checked(&format!("{name}, sealed"), &disc, Depth::Some);
        }
        let others = shapes().into_iter().chain(shapes_prevailing::shapes()).chain(shapes_matching::shapes());
        for (name, disc) in others {
            if self.tally.seconds() * 4 > seconds * 3 {
                return;
            }
            let (mut disc, mut random) = (disc, Random::new(self.bodies.next()));
            disc.seal_oddly(&mut random);
            self.checked(&format!("{name}, sealed"), &disc, Depth::Some);
            disc.ruin_any(&mut random);
            self.checked(&format!("{name}, ruined"), &disc, Depth::Some);
        }
    }

    /// A volume with right CRCs: whole, with some of its descriptors ruined, and damaged, with its CRCs made right again or not.
    fn sealed(&mut self, number: u64) {
        let mut random = Random::new(self.bodies.next());
        let sort = *random.pick(&[Sort::Usual, Sort::Usual, Sort::Meeting]);
        let mut whole = volumes::volume(&mut random, sort);
        whole.seal_oddly(&mut random);
        for part in ["sealed", "ruined", "ruined again", "damaged and sealed", "damaged, sealed and ruined", "sealed and damaged"] {
            let mut disc = whole.clone();
            if part.contains("damaged") {
                damage(&mut random, &mut disc);
            }
            if part.ends_with("and sealed") || part.ends_with("and ruined") {
                disc.seal_oddly(&mut random);
            }
            if part.contains("ruined") {
                (0..random.between(1, 3)).for_each(|_| disc.ruin_any(&mut random));
            }
            self.checked(&format!("random {number}, {part}"), &disc, Depth::Some);
        }
    }

    /// Asks an image with bodies checked.
    fn checked(&mut self, name: &str, disc: &Disc, depth: Depth) {
        if !self.is_over() {
            let random = Random::new(self.bodies.next());
            self.image(name, disc, Asked::Checked, depth, random);
        }
    }

    fn is_over(&self) -> bool {
        self.tally.stopped || self.tally.mismatches >= self.enough
    }

    fn image(&mut self, name: &str, disc: &Disc, asked: Asked, depth: Depth, mut random: Random) {
        // A panic here is the original's, or a walk that isn't the original's own: either is worth a look.
        let (matchings, stacks, whole, surveys) = (&mut self.matchings, &mut self.stacks, &mut self.shows, &mut self.surveys);
        let made = catch_unwind(AssertUnwindSafe(|| {
            let mut all = match asked {
                Asked::Unchecked => cases(&mut random, disc, depth),
                Asked::Checked => checked(&mut random, disc, depth),
                Asked::Mapped => mapped(&mut random, disc, depth),
            };
            match asked {
                Asked::Unchecked => all.extend(matched(matchings, disc, depth)),
                Asked::Checked | Asked::Mapped => all.extend(cases(&mut random, disc, Depth::Some)),
            }
            all.extend(chosen(&mut random, disc));
            all.extend(stacked(stacks, disc, asked, depth));
            all.extend(shows(whole, disc, asked, depth));
            all.extend(measured(disc, &all));
            all.extend(surveyed(surveys, disc, asked, depth));
            all
        }));
        self.cases(name, disc, made.ok(), random);
        if self.is_over() {
            return;
        }
        self.steps(name, disc, asked, depth);
        self.tally.images += 1;
        self.tally.progress();
        if name.starts_with("random") {
            self.shelf.push(disc.clone());
        }
    }

    /// The cases of an image, asked of our side; none, where the original stopped while they were made.
    fn cases(&mut self, name: &str, disc: &Disc, made: Option<Vec<Case>>, mut random: Random) {
        let Some(cases) = made else {
            self.keep(name, Some(disc), "the original stopped by a panic");
            return;
        };
        let noise = match random.once_in(2) {
            true => Noise::Random(random.next() as u32),
            false => Noise::Shifted(1 + random.below(200) as u32),
        };
        self.ours.load(&disc.image, noise);
        let salts: Vec<u8> = cases.iter().map(|_| random.next() as u8).collect();
        let asks: Vec<Ask> = cases
            .iter()
            .zip(salts)
            .map(|(c, salt)| Ask { query: &c.query, kept: c.in_noise.then_some(&c.expected.sectors[..]), salt })
            .collect();
        let given = match self.ours.answers(&asks) {
            Ok(given) => given,
            Err(e) => {
                self.keep(name, Some(disc), &format!("our side stopped: {e}"));
                self.tally.stopped = true;
                return;
            }
        };
        for (case, given) in cases.iter().zip(&given) {
            self.case(name, disc, case, given);
            if self.is_over() {
                return;
            }
        }
    }

    /// The opening and the reads of the image that is loaded, a sector at a time.
    fn steps(&mut self, name: &str, disc: &Disc, asked: Asked, depth: Depth) {
        let drives = &mut self.drives;
        let made = catch_unwind(AssertUnwindSafe(|| {
            let queries = stepped(drives, disc, asked, depth);
            queries.iter().flat_map(|query| steps::groups(drives, &disc.image, query)).collect::<Vec<_>>()
        }));
        let Ok(groups) = made else {
            self.keep(name, Some(disc), "the original stopped by a panic");
            return;
        };
        for group in groups {
            if let Err(e) = self.group(name, disc, group) {
                self.keep(name, Some(disc), &format!("our side stopped: {e}"));
                self.tally.stopped = true;
            }
            if self.is_over() {
                return;
            }
        }
    }

    /// The cases of one query on one disc, the first with memory to spare.
    fn group(&mut self, name: &str, disc: &Disc, mut cases: Vec<StepCase>) -> std::io::Result<()> {
        let asks: Vec<&StepAsk> = cases.iter().map(|case| &case.ask).collect();
        let mut given = self.ours.steps(&asks)?;
        if let Some(case) = steps::sooner(&mut self.drives, &cases[0], &given[0]) {
            given.extend(self.ours.steps(&[&case.ask])?);
            cases.push(case);
        }
        for (case, one) in cases.iter().zip(&given) {
            *self.tally.stepped.entry((case.ask.query.call, one.values.answer)).or_insert(0) += 1;
            self.tally.denied += u64::from(case.ask.denied.is_some());
            if let Some(what) = steps::difference(case, one).or_else(|| steps::beside(&given[0], case, one)) {
                self.keep(name, Some(disc), &format!("a sector at a time, {what}\n{}", steps::told(case, one)));
            }
        }
        Ok(())
    }

    fn case(&mut self, name: &str, disc: &Disc, case: &Case, given: &Given) {
        let e = &case.expected;
        let row = Row::of(&case.query);
        if case.in_noise {
            self.tally.in_noise += 1;
        } else {
            *self.tally.asked.entry((row, case.query.call, e.values.answer)).or_insert(0) += 1;
            e.values.rows.iter().for_each(|(_, answer)| *self.tally.items.entry((row, u64::from(*answer))).or_insert(0) += 1);
            self.tally.surveyed(row, case);
        }
        self.tally.by_the_rule[0] += u64::from(e.by_the_rule);
        e.ruined.iter().for_each(|ruined| *self.tally.ruined.entry(*ruined).or_insert(0) += 1);
        self.tally.chosen(&disc.image, case);
        if let Some(what) = difference(e, given) {
            let text = told(&case.query, case.in_noise, e, given);
            self.keep(name, Some(disc), &format!("{what}\n{text}"));
        }
        // The process of its own has the original as it is.
        let is_own = !matches!(case.query.call, Call::ReadAll | Call::Show | Call::Measure | Call::Survey);
        if e.absurd && !e.by_the_rule && row == Row::Matched(Choice::CaseIgnored) && is_own {
            self.absurd(name, disc, case);
        }
    }

    /// A batch of raw records.
    fn raws(&mut self) {
        if self.is_over() {
            return;
        }
        let random = &mut self.random;
        let Ok(cases) = catch_unwind(AssertUnwindSafe(|| batch(random))) else {
            self.keep("raw records", None, "the original stopped by a panic");
            return;
        };
        let asks: Vec<&RawAsk> = cases.iter().map(|c| &c.ask).collect();
        let given = match self.ours.raws(&asks) {
            Ok(given) => given,
            Err(e) => {
                self.keep("raw records", None, &format!("our side stopped: {e}"));
                self.tally.stopped = true;
                return;
            }
        };
        for (case, given) in cases.iter().zip(&given) {
            *self.tally.raw.entry((case.ask.call, case.number())).or_insert(0) += 1;
            self.tally.by_the_rule[1] += u64::from(case.by_the_rule);
            if let Some(what) = raw_difference(case, given) {
                self.keep(&format!("a raw record, {}", case.ask.call.name()), None, &format!("{what}\n{}", raw_told(case, given)));
            }
            if self.is_over() {
                return;
            }
        }
    }

    /// An absurd information length: the original is tried as it is, in a process of its own.
    fn absurd(&mut self, name: &str, disc: &Disc, case: &Case) {
        self.tally.absurd += 1;
        if self.tally.absurd > CHILDREN || case.in_noise || std::str::from_utf8(&case.query.path).is_err() {
            return;
        }
        match aborts::ask(&disc.image, &case.query, &case.expected) {
            Ok(end) => *self.tally.ends.entry(end).or_insert(0) += 1,
            Err(said) => self.keep(name, Some(disc), &format!("the original, asked as it is, says {said}\n{:?}", case.query)),
        }
    }

    /// Writes a mismatch out: the image, sparse, if there is one, and beside it what was asked and answered.
    fn keep(&mut self, name: &str, disc: Option<&Disc>, what: &str) {
        self.tally.mismatches += 1;
        let folder = PathBuf::from(concat!(env!("CARGO_MANIFEST_DIR"), "/../target/mismatches"));
        let file = folder.join(format!("{}", self.tally.mismatches));
        let written = std::fs::create_dir_all(&folder)
            .and_then(|()| keep_image(&file.with_extension("image"), disc))
            .and_then(|()| std::fs::write(file.with_extension("txt"), format!("{name}\nseed {}\n{what}\n", self.seed)));
        let first = what.lines().next().unwrap_or_default();
        match written {
            Ok(()) => eprintln!("compare: MISMATCH on {name}: {first} ({}.txt)", file.display()),
            Err(e) => eprintln!("compare: MISMATCH on {name}: {what} (not kept: {e})"),
        }
    }
}

/// The image of a mismatch. Where it is of none, the one of an earlier run goes.
fn keep_image(file: &Path, disc: Option<&Disc>) -> std::io::Result<()> {
    match disc {
        Some(disc) => std::fs::write(file, sparse::pack(&disc.image)),
        None if file.exists() => std::fs::remove_file(file),
        None => Ok(()),
    }
}

/// What differs, if anything.
fn difference(e: &Expected, given: &Given) -> Option<String> {
    let (want, got) = (&e.values, &given.values);
    if (want.answer, want.count) != (got.answer, got.count) {
        return Some(format!("answer {} count {}, and not {} {}", got.answer, got.count, want.answer, want.count));
    }
    if want != got {
        return Some("other values".to_string());
    }
    let names = [
        "a byte beside the output",
        "a byte behind the answer",
        "a byte beside the work space",
        "work space not zero",
        "a byte beside a row",
        "a place behind the answer",
    ];
    let broken: Vec<&str> = (0..names.len()).filter(|i| given.held >> i & 1 == 0).map(|i| names[i]).collect();
    (given.held != HELD).then(|| broken.join(", "))
}

fn told(q: &Query, in_noise: bool, e: &Expected, given: &Given) -> String {
    let brief = |v: &super::calls::Values| {
        let mut v = v.clone();
        let n = v.written.len();
        v.written.truncate(64);
        format!("{v:?} ({n} bytes written)")
    };
    format!(
        "call {}, {}, in noise {in_noise}\nquery {q:?}\npath {:?}\nexpected {}\ngiven    {} held {}\nsectors {:?}\n",
        q.call.name(),
        Choice::of(q.matching).name(),
        String::from_utf8_lossy(&q.path),
        brief(&e.values),
        brief(&given.values),
        given.held,
        e.sectors
    )
}

/// What differs, if anything.
fn raw_difference(case: &RawCase, given: &RawGiven) -> Option<&'static str> {
    if case.expected != given.said {
        return Some("another answer");
    }
    (given.held != RAW_HELD).then_some("a byte beside the answer")
}

fn raw_told(case: &RawCase, given: &RawGiven) -> String {
    let ask = &case.ask;
    format!(
        "call {} room {}\ninput {:02x?} ({} bytes)\nexpected {}\ngiven    {} held {}\n",
        ask.call.name(),
        ask.room,
        ask.input,
        ask.input.len(),
        shown(ask.call, &case.expected),
        shown(ask.call, &given.said),
        given.held
    )
}

/// The numbers that a call can be answered with.
fn numbers(row: Row, call: Call) -> Vec<u64> {
    let mut all = match call {
        Call::Probe => vec![0, 1],
        Call::Open => vec![0, 1, 2, 3, 4],
        Call::Label => vec![0, 1, 2, 3, 4, 5],
        Call::Lookup | Call::Failed => vec![0, 1, 2, 3, 4, 6],
        Call::List => vec![0, 1, 2, 4, 5, 6],
        Call::Read => vec![0, 1, 2, 4, 5],
        Call::Part => vec![0, 1, 2, 4],
        Call::Extents => vec![0, 1, 2, 4, 7],
        Call::ReadPath => vec![0, 1, 2, 3, 4, 5, 6],
        Call::ReadAll => return vec![0, TOO_MANY],
        Call::Show => vec![0, 1, 2, 4, 5, 6, TOO_DEEP, OVER_BUDGET],
        Call::Measure => vec![0, 1, 2, 4],
        Call::Survey | Call::Total => return vec![0, BAD_SHELF],
    };
    let is_ambiguous = call.has_path() && matches!(row, Row::Matched(Choice::Unambiguous) | Row::Checked | Row::Mapped);
    all.extend(is_ambiguous.then_some(AMBIGUOUS));
    all.extend(matches!(row, Row::Checked | Row::Mapped).then_some(BAD_CRC));
    all
}

/// The answer numbers that no image or file of a survey had.
fn uncounted(tally: &Tally, row: Row) -> Vec<String> {
    let all = [(Counted::Images, &[0, 1, 2, 3, 4, 6, TOO_DEEP, BAD_CRC, OVER_BUDGET][..]), (Counted::Files, &[0, 1, 2, 4, BAD_CRC])];
    let can_be = |n: u64| n != BAD_CRC || matches!(row, Row::Checked | Row::Mapped);
    let numbers = all.into_iter().flat_map(|(what, numbers)| numbers.iter().map(move |n| (what, *n)));
    let never = numbers.filter(|(what, n)| can_be(*n) && !tally.counted.contains_key(&(row, *what, *n)));
    never.map(|(what, n)| format!("{} {n}", row.counted(what))).collect()
}

/// Whether every call was answered with everything that it can be answered with.
pub fn unreached(tally: &Tally) -> Vec<String> {
    let mut all = Vec::new();
    for (row, call) in Row::all() {
        let never = numbers(row, call).into_iter().filter(|n| !tally.asked.contains_key(&(row, call, *n)));
        all.extend(never.map(|n| format!("{} {n}", row.name(call))));
        if call == Call::ReadAll {
            let never = numbers(row, Call::ReadPath).into_iter().filter(|n| !tally.items.contains_key(&(row, *n)));
            all.extend(never.map(|n| format!("{} {n}", row.items())));
        }
        if call == Call::Survey {
            all.extend(uncounted(tally, row));
        }
    }
    for (id, past) in PARSED.into_iter().flat_map(|id| [(id, false), (id, true)]) {
        if !tally.ruined.contains_key(&(id, past)) {
            let what = if past { "CRC length beyond the bytes at hand" } else { "wrong CRC" };
            all.push(format!("a {what} under id {id}"));
        }
    }
    for call in RawCall::ALL {
        let never = call.numbers().iter().filter(|n| !tally.raw.contains_key(&(*call, **n)));
        all.extend(never.map(|n| format!("{} {n}", call.name())));
    }
    for (call, numbers) in [(Call::Open, &[0, 1, 2, 3, 4][..]), (Call::Read, &[0, 1, 2, 4, 5, 7, BAD_CRC])] {
        let never = numbers.iter().filter(|n| !tally.stepped.contains_key(&(call, **n)));
        all.extend(never.map(|n| format!("{} a sector at a time {n}", call.name())));
    }
    if tally.mapped.contains(&0) {
        all.push("an opening through maps, and one that has another answer without".to_string());
    }
    if tally.chosen.contains(&0) {
        all.push("a choice on opening, and one that opens another volume".to_string());
    }
    if tally.by_the_rule.contains(&0) {
        all.push("a d-string with id 254 or 255".to_string());
    }
    all
}
