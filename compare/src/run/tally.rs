//! What was compared, by call and answer number.

use super::calls::{Call, Choice, Query};
use super::expect::expected;
use super::mapped::{ACROSS, HELD};
use super::queries::Case;
use super::raw::RawCall;
use super::surveys;
use crate::udf::within::{RIGHT, Ruined};
use std::collections::BTreeMap;
use std::fmt;
use std::time::Instant;
use strandlodge_sys::vault::{CHECKED, HIGHEST, MAPS};

/// The answer numbers of the calls on an image.
const NUMBERS: [u64; 14] = [0, 1, 2, 3, 4, 5, 6, 7, 9, 10, 11, 12, 15, 16];

/// A row of a table: a name, and how many of each number.
fn row(f: &mut fmt::Formatter, name: &str, of: impl Fn(u64) -> u64) -> fmt::Result {
    let numbers: String = NUMBERS.iter().map(|n| format!("{:>10}", of(*n))).collect();
    writeln!(f, "{name:26}{numbers}")
}

/// Which row a query counts in: through maps, or with bodies checked, or without both by its choice of matching.
#[derive(Clone, Copy, PartialEq, Eq, PartialOrd, Ord)]
pub enum Row {
    Matched(Choice),
    Checked,
    Mapped,
}

impl Row {
    pub fn of(q: &Query) -> Row {
        if q.is_mapped() {
            return Row::Mapped;
        }
        if q.is_checked() { Row::Checked } else { Row::Matched(Choice::of(q.matching)) }
    }

    pub fn name(self, call: Call) -> String {
        self.named(call.name())
    }

    /// The row of the paths of lists.
    pub fn items(self) -> String {
        self.named("its items")
    }

    /// The rows of what a survey counts by its answer.
    pub fn counted(self, what: Counted) -> String {
        self.named(["its images", "their files"][what as usize])
    }

    fn named(self, what: &str) -> String {
        match self {
            Row::Matched(Choice::CaseIgnored) => what.to_string(),
            Row::Matched(choice) => format!("{what}, {}", choice.name()),
            Row::Checked => format!("{what}, checked"),
            Row::Mapped => format!("{what}, through maps"),
        }
    }

    /// The rows of the table, in its order.
    pub fn all() -> Vec<(Row, Call)> {
        use Choice::{AsWritten, CaseIgnored, Unambiguous};
        let along = |choice| Call::ALL.into_iter().filter(|call| call.has_path()).map(move |call| (Row::Matched(choice), call));
        let first = Call::ALL.into_iter().map(|call| (Row::Matched(CaseIgnored), call));
        let all_of = |row| Call::ALL.into_iter().filter(|call| call.has_choices()).map(move |call| (row, call));
        first.chain(along(AsWritten)).chain(along(Unambiguous)).chain(all_of(Row::Checked)).chain(all_of(Row::Mapped)).collect()
    }
}

/// What a survey counts by its answer.
#[derive(Clone, Copy, PartialEq, Eq, PartialOrd, Ord)]
pub enum Counted {
    Images,
    Files,
}

/// The ids of the descriptors that are parsed.
pub const PARSED: [u16; 9] = [1, 2, 5, 6, 256, 257, 258, 261, 266];

pub struct Tally {
    began: Instant,
    said: u64,
    pub images: u64,
    pub asked: BTreeMap<(Row, Call, u64), u64>,
    /// The paths of lists, by their answers.
    pub items: BTreeMap<(Row, u64), u64>,
    /// The images of surveys, and the files on them, by their answers.
    pub counted: BTreeMap<(Row, Counted, u64), u64>,
    pub raw: BTreeMap<(RawCall, u64), u64>,
    /// Openings and reads a sector at a time, by their answers; and of these, how many with a sector that couldn't be had.
    pub stepped: BTreeMap<(Call, u64), u64>,
    pub denied: u64,
    pub in_noise: u64,
    pub mismatches: u64,
    /// Our side came to an end by itself.
    pub stopped: bool,
    pub absurd: u64,
    /// Queries and raw records that were held to the rule on compression ids 254 and 255, since the original reached such a d-string.
    pub by_the_rule: [u64; 2],
    /// Queries by a choice on opening; and of those, on how many the volume or the refusal is another than without.
    pub chosen: [u64; 2],
    /// The same for the maps.
    pub mapped: [u64; 2],
    /// Queries that were refused for a body, by what is wrong with it.
    pub ruined: BTreeMap<Ruined, u64>,
    /// What became of the original where it was asked for absurd memory, in a process of its own.
    pub ends: BTreeMap<String, u64>,
}

impl Tally {
    pub fn new() -> Tally {
        Tally {
            began: Instant::now(),
            said: 0,
            images: 0,
            asked: BTreeMap::new(),
            items: BTreeMap::new(),
            counted: BTreeMap::new(),
            raw: BTreeMap::new(),
            stepped: BTreeMap::new(),
            denied: 0,
            in_noise: 0,
            mismatches: 0,
            stopped: false,
            absurd: 0,
            by_the_rule: [0; 2],
            chosen: [0; 2],
            mapped: [0; 2],
            ruined: BTreeMap::new(),
            ends: BTreeMap::new(),
        }
    }

    pub fn seconds(&self) -> u64 {
        self.began.elapsed().as_secs()
    }

    pub fn queries(&self) -> u64 {
        self.asked.values().sum()
    }

    pub fn raws(&self) -> u64 {
        self.raw.values().sum()
    }

    /// Counts the images and the files of a survey, which the figures of its shelf have.
    pub fn surveyed(&mut self, row: Row, case: &Case) {
        if (case.query.call, case.expected.values.answer) != (Call::Survey, 0) {
            return;
        }
        for (what, answer, n) in surveys::counts(&case.expected.values.written) {
            *self.counted.entry((row, what, answer)).or_insert(0) += n;
        }
    }

    /// Counts a query by a choice.
    pub fn chosen(&mut self, image: &[u8], case: &Case) {
        if !matches!(case.query.call, Call::Open | Call::Label) {
            return;
        }
        if case.query.how & !CHECKED == HIGHEST {
            let plain = expected(image, &Query { how: case.query.how & CHECKED, ..case.query.clone() });
            self.chosen[0] += 1;
            self.chosen[1] += u64::from(plain.values != case.expected.values);
        }
        if case.query.is_mapped() {
            let plain = expected(image, &Query { how: case.query.how & !MAPS, ..case.query.clone() });
            self.mapped[0] += 1;
            self.mapped[1] += u64::from(plain.values.answer != case.expected.values.answer);
        }
    }

    /// A line now and then, so that whoever waits sees it go on.
    pub fn progress(&mut self) {
        let now = self.seconds();
        if now >= self.said + 5 {
            self.said = now;
            eprintln!(
                "compare: {now} s, {} images, {} queries, {} again in noise, {} raw records, {} mismatches",
                self.images,
                self.queries(),
                self.in_noise,
                self.raws(),
                self.mismatches
            );
        }
    }
}

impl fmt::Display for Tally {
    fn fmt(&self, f: &mut fmt::Formatter) -> fmt::Result {
        row(f, "call", |n| n)?;
        for (kind, call) in Row::all() {
            row(f, &kind.name(call), |n| self.asked.get(&(kind, call, n)).copied().unwrap_or(0))?;
            if call == Call::ReadAll {
                row(f, &kind.items(), |n| self.items.get(&(kind, n)).copied().unwrap_or(0))?;
            }
            for what in [Counted::Images, Counted::Files].into_iter().filter(|_| call == Call::Survey) {
                row(f, &kind.counted(what), |n| self.counted.get(&(kind, what, n)).copied().unwrap_or(0))?;
            }
        }
        for call in [Call::Open, Call::Read] {
            row(f, &format!("{}, by sectors", call.name()), |n| self.stepped.get(&(call, n)).copied().unwrap_or(0))?;
        }
        for call in RawCall::ALL {
            row(f, call.name(), |n| self.raw.get(&(*call, n)).copied().unwrap_or(0))?;
        }
        let (images, queries, in_noise, raws) = (self.images, self.queries(), self.in_noise, self.raws());
        writeln!(f, "images {images}, queries {queries}, again in noise {in_noise}, raw records {raws}, seconds {}", self.seconds())?;
        writeln!(f, "by sectors {}, with one denied {}", self.stepped.values().sum::<u64>(), self.denied)?;
        let ends: Vec<String> = self.ends.iter().map(|(k, n)| format!("{n} {k}")).collect();
        writeln!(f, "absurd information lengths {}; of these the original, in a process of its own: {}", self.absurd, ends.join(", "))?;
        let [queries, raws] = self.by_the_rule;
        writeln!(f, "held to the rule on ids 254 and 255: {queries} queries, with those in noise, and {raws} raw records")?;
        let [all, others] = self.chosen;
        writeln!(
            f,
            "by the highest sequence numbers: {all} queries, with those in noise; on {others} of them the last ones give another answer"
        )?;
        let ([all, others], held, across) = (self.mapped, HELD.get(), ACROSS.get());
        writeln!(f, "opened through maps: {all} queries, with those in noise; on {others} of them the answer is another without")?;
        writeln!(
            f,
            "files that the model read through maps: {held} in one partition, {across} across several, or refused for a reference"
        )?;
        let ruined = |id: u16| [false, true].map(|past| self.ruined.get(&(id, past)).copied().unwrap_or(0));
        let by_id: Vec<String> =
            PARSED.iter().map(|id| (id, ruined(*id))).map(|(id, [wrong, past])| format!("{id}: {wrong} + {past}")).collect();
        let others: u64 = self.ruined.iter().filter(|((id, _), _)| !PARSED.contains(id)).map(|(_, n)| n).sum();
        writeln!(
            f,
            "refused by 10, by the tag's id, with those in noise, for the CRC + for its length: {}; other ids: {others}",
            by_id.join(", ")
        )?;
        writeln!(f, "right bodies of a byte or more that the model summed: {}", RIGHT.get())?;
        write!(f, "mismatches {}", self.mismatches)
    }
}
