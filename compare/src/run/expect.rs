//! What a query must be answered with: the original's answer, with the refusals that lent memory adds.

use super::calls::{Call, Choice, Icb, PLENTY, Query, Values, Volume, slot};
use super::original::{self, Came, Original, icb};
use super::prevailing;
use super::surveys;
use crate::udf::{DirEntry, within};
use strandlodge_sys::vault::{AMBIGUOUS, BAD_CRC, CHECKED, HIGHEST, MAPS, OVER_BUDGET, TOO_DEEP, TOO_MANY};

/// The answer, and what it took.
pub struct Expected {
    pub values: Values,
    /// The sectors that the original asked for, in order, as far as the answer goes.
    pub sectors: Vec<u64>,
    /// The bytes of each directory that was read without a refusal of the original.
    pub directories: Vec<usize>,
    /// How much of the output the answer takes: bytes, or slots; 0 where the original refuses.
    pub full: usize,
    /// The original would ask for absurd memory, and was asked with the information length lowered.
    pub absurd: bool,
    /// A d-string with id 254 or 255 was reached: what is expected is the original's answer with an empty name for it, as the rules have it.
    pub by_the_rule: bool,
    /// The body for which it is refused.
    pub ruined: Option<within::Ruined>,
    /// A show or a survey with more paths than are walked here: nothing is expected.
    pub beyond: bool,
}

/// So many paths of a show are walked.
const MOST_PATHS: usize = 200_000;

impl Expected {
    pub fn new(answer: u64, sectors: Vec<u64>) -> Expected {
        let values = Values { answer, count: sectors.len() as u64, ..Values::default() };
        Expected { values, sectors, directories: Vec::new(), full: 0, absurd: false, by_the_rule: false, ruined: None, beyond: false }
    }

    /// An answer of bytes, which are refused where they don't fit.
    pub fn bytes(mut self, bytes: Vec<u8>, slots: usize, room: usize, refusal: u64) -> Expected {
        self.full = slots;
        if slots > room {
            self.values.answer = refusal;
        } else {
            self.values.length = slots as u64;
            self.values.written = bytes;
        }
        self
    }
}

pub fn expected(image: &[u8], q: &Query) -> Expected {
    let ((e, by_the_rule), ruined) = within::checked(q.is_checked(), || within::asked(|| answered(image, q)));
    Expected { by_the_rule, ruined: ruined.filter(|_| e.values.answer == BAD_CRC), ..e }
}

fn answered(image: &[u8], q: &Query) -> Expected {
    match q.call {
        Call::Probe => Expected::new(original::probe(image) as u64, Vec::new()),
        Call::Open => opening(image, q),
        Call::Label => labelling(image, q),
        Call::Lookup | Call::Failed => looking_up(image, q),
        Call::ReadPath => reading_path(image, q),
        Call::ReadAll => reading_all(image, q),
        Call::Show => showing(image, q),
        Call::Measure => measuring(image, q),
        Call::Survey => surveys::surveying(image, q),
        Call::Total => surveys::totalling(q),
        Call::List => listing(image, q),
        Call::Read => reading(image, q),
        Call::Part => parting(image, q),
        Call::Extents => extending(image, q),
    }
}

/// Opened as the query chooses: by the original, or by a model of the highest numbers, or of the maps; with bodies checked the volume says so.
/// Other choices there are none of.
pub fn opened(image: &[u8], q: &Query) -> Came<(Volume, String)> {
    let came = match q.how & !CHECKED {
        0 => original::open(image),
        HIGHEST => prevailing::open(image),
        how if how & !HIGHEST == MAPS => prevailing::open_mapped(image, how & HIGHEST != 0),
        _ => Came { value: Err(4), asked: Vec::new() },
    };
    let says = |(volume, name)| (Volume { checked: q.how & CHECKED, ..volume }, name);
    Came { value: came.value.map(says), ..came }
}

fn opening(image: &[u8], q: &Query) -> Expected {
    let came = opened(image, q);
    match came.value {
        Err(n) => Expected::new(n, came.asked),
        Ok((volume, _)) => {
            let mut e = Expected::new(0, came.asked);
            e.values.volume = volume;
            e
        }
    }
}

fn labelling(image: &[u8], q: &Query) -> Expected {
    let came = opened(image, q);
    match came.value {
        Err(n) => Expected::new(n, came.asked),
        Ok((_, name)) => Expected::new(0, came.asked).bytes(name.clone().into_bytes(), name.len(), q.room, 5),
    }
}

fn reading(image: &[u8], q: &Query) -> Expected {
    let mut o = Original::new(image, q.volume);
    let came = o.read(q.icb);
    let mut e = match came.value {
        Err(n) => Expected::new(n, came.asked),
        Ok(b) => Expected::new(0, came.asked).bytes(b.clone(), b.len(), q.room, 5),
    };
    e.absurd = o.absurd;
    e
}

/// The read with room to spare, of which nothing is written.
fn measuring(image: &[u8], q: &Query) -> Expected {
    let mut e = reading(image, &q.with(PLENTY, 0));
    (e.values.written, e.full) = (Vec::new(), 0);
    e
}

fn listing(image: &[u8], q: &Query) -> Expected {
    let mut o = Original::new(image, q.volume);
    let read = o.read(q.icb);
    let listed = o.list(q.icb);
    let mut e = match (read.value, listed.value) {
        (Err(n), _) => Expected::new(n, read.asked),
        (Ok(b), _) if b.len() > q.work => sized(Expected::new(6, read.asked), b.len()),
        (Ok(b), Err(n)) => sized(Expected::new(n, read.asked), b.len()),
        (Ok(b), Ok(entries)) => {
            let mut all = Vec::new();
            for entry in entries {
                all.extend([0x44, 0x45]);
                put_entry(&mut all, &entry);
            }
            let n = all.len();
            sized(Expected::new(0, read.asked).bytes(all, n, q.room, 5), b.len())
        }
    };
    e.absurd = o.absurd;
    e
}

/// What a record has behind its mark, and its level.
fn put_entry(to: &mut Vec<u8>, entry: &DirEntry) {
    to.push(entry.is_directory as u8);
    to.extend(icb(entry.icb).recorded());
    // A name has at most 508 bytes: it is recorded in 255 at most.
    to.extend((entry.name.len() as u16).to_le_bytes());
    to.extend(entry.name.as_bytes());
}

fn sized(mut e: Expected, directory: usize) -> Expected {
    e.directories.push(directory);
    e
}

fn parting(image: &[u8], q: &Query) -> Expected {
    let came = Original::new(image, q.volume).entry(q.icb);
    match came.value {
        Err(n) => Expected::new(n, came.asked),
        Ok(entry) => {
            let sector = came.asked[0];
            let mut e = Expected::new(0, came.asked);
            if let Some((at, length)) = Original::embedded(&entry) {
                e.values.length = length as u64;
                e.values.place = sector * 2048 + at as u64;
            }
            e
        }
    }
}

fn extending(image: &[u8], q: &Query) -> Expected {
    let came = Original::new(image, q.volume).entry(q.icb);
    match came.value {
        Err(n) => Expected::new(n, came.asked),
        Ok(entry) => {
            let extents = Original::extents(&entry);
            let rows = extents.iter().flat_map(|x| slot(x.length, x.extent_type, x.block, x.partition_ref)).collect();
            Expected::new(0, came.asked).bytes(rows, extents.len(), q.room, 7)
        }
    }
}

/// A path cut at slashes: where each component that isn't empty stands.
fn components(path: &[u8]) -> Vec<(usize, usize)> {
    let mut found = Vec::new();
    let mut from = 0;
    for part in path.split(|b| *b == b'/') {
        if !part.is_empty() {
            found.push((from, part.len()));
        }
        from += part.len() + 1;
    }
    found
}

/// A component as the original can be asked for it. One that isn't UTF-8 names nothing, and so does this: names have 16 bits.
fn spoken(component: &[u8]) -> &str {
    std::str::from_utf8(component).unwrap_or("\u{10ffff}")
}

struct Walk {
    answer: u64,
    asked: Vec<u64>,
    icb: Icb,
    /// The component that isn't there: where it stands in the path, and its length.
    lost: Option<(usize, usize)>,
    directories: Vec<usize>,
}

impl Walk {
    fn refused(self, answer: u64) -> Walk {
        Walk { answer, ..self }
    }

    fn lost(self, component: (usize, usize)) -> Walk {
        Walk { answer: 3, lost: Some(component), ..self }
    }
}

/// The entries that a component matches, in the disc's order. The original's listing leaves out those that are deleted or the parent.
fn matches<'e>(entries: &'e [DirEntry], component: &[u8], choice: Choice) -> Vec<&'e DirEntry> {
    let spoken = spoken(component);
    let is_match = |e: &&DirEntry| match choice {
        Choice::AsWritten => e.name.as_bytes() == component,
        Choice::CaseIgnored | Choice::Unambiguous => e.name.eq_ignore_ascii_case(spoken),
    };
    entries.iter().filter(is_match).collect()
}

/// A lookup, a component at a time, by the original's reading and listing of each directory.
fn walk(o: &mut Original, q: &Query) -> Walk {
    let mut w = Walk { answer: 0, asked: Vec::new(), icb: q.volume.root, lost: None, directories: Vec::new() };
    let mut is_directory = true;
    for (from, length) in components(&q.path) {
        if !is_directory {
            return w.lost((from, length));
        }
        let read = o.read(w.icb);
        w.asked.extend(read.asked);
        let size = match read.value {
            Err(n) => return w.refused(n),
            Ok(bytes) => bytes.len(),
        };
        w.directories.push(size);
        if size > q.work {
            return w.refused(6);
        }
        let entries = match o.list(w.icb).value {
            Err(n) => return w.refused(n),
            Ok(entries) => entries,
        };
        let choice = Choice::of(q.matching);
        let entry = match matches(&entries, &q.path[from..from + length], choice)[..] {
            [] => return w.lost((from, length)),
            [_, _, ..] if choice == Choice::Unambiguous => return w.refused(AMBIGUOUS),
            [first, ..] => first,
        };
        w.icb = icb(entry.icb);
        is_directory = entry.is_directory;
    }
    w
}

/// The path as the original can be asked for it.
fn spoken_path(path: &[u8]) -> String {
    let parts: Vec<&str> = path.split(|b| *b == b'/').map(spoken).collect();
    parts.join("/")
}

/// Whether the original has the choice of a query: it ignores case, takes the first entry, and has no maps.
fn is_own(q: &Query) -> bool {
    Choice::of(q.matching) == Choice::CaseIgnored && !q.is_mapped()
}

/// The walk has to be the original's own lookup, where there is work space enough and nothing absurd.
fn agree<T: PartialEq + std::fmt::Debug>(walked: (u64, &[u64], Option<&T>), own: &Came<T>) {
    let came = (own.value.as_ref().err().copied().unwrap_or(0), own.asked.as_slice(), own.value.as_ref().ok());
    assert!(walked == came, "the walk by components is not the original's own: {walked:?} and {came:?}");
}

fn looking_up(image: &[u8], q: &Query) -> Expected {
    let mut o = Original::new(image, q.volume);
    let w = walk(&mut o, q);
    let (absurd, fits) = (o.absurd, w.answer != 6);
    if !absurd && fits && is_own(q) {
        let own = o.lookup(&spoken_path(&q.path));
        agree((w.answer, &w.asked, (w.answer == 0).then_some(&w.icb)), &own);
    }
    let mut e = Expected::new(w.answer, w.asked);
    match (q.call, w.lost) {
        (Call::Failed, Some((from, length))) => {
            e.values.place = from as u64;
            e.values.length = length as u64;
        }
        (Call::Lookup, _) if w.answer == 0 => e.values.icb = w.icb,
        _ => {}
    }
    e.directories = w.directories;
    e.absurd = absurd;
    e
}

fn reading_path(image: &[u8], q: &Query) -> Expected {
    let mut o = Original::new(image, q.volume);
    let w = walk(&mut o, q);
    let (mut answer, mut asked, mut bytes) = (w.answer, w.asked, None);
    if answer == 0 {
        let read = o.read(w.icb);
        asked.extend(read.asked);
        match read.value {
            Err(n) => answer = n,
            Ok(b) => bytes = Some(b),
        }
    }
    let absurd = o.absurd;
    if !absurd && answer != 6 && is_own(q) {
        let own = o.read_path(&spoken_path(&q.path));
        agree((answer, &asked, bytes.as_ref()), &own);
    }
    let mut e = Expected::new(answer, asked);
    if let Some(b) = bytes {
        let n = b.len();
        e = e.bytes(b, n, q.room, 5);
    }
    e.directories = w.directories;
    e.absurd = absurd;
    e
}

/// A list of paths: each in turn by itself, with the room that those before it leave.
fn reading_all(image: &[u8], q: &Query) -> Expected {
    if q.items().count() > q.places[0].min(q.places[1]) {
        return Expected::new(TOO_MANY, Vec::new());
    }
    let (mut asked, mut all) = (Vec::new(), Expected::new(0, Vec::new()));
    for path in q.items() {
        let one = reading_path(image, &q.item(path, q.room - all.values.written.len()));
        all.values.rows.push((one.values.length, one.values.answer as u32));
        all.values.written.extend(one.values.written);
        all.full += one.full;
        all.directories.extend(one.directories);
        all.absurd |= one.absurd;
        asked.extend(one.sectors);
    }
    all.values.count = asked.len() as u64;
    all.values.length = all.values.written.len() as u64;
    Expected { sectors: asked, ..all }
}

/// A whole tree so far: the sectors, the records, the work space that each directory takes with those above it, the paths, and the files by theirs.
#[derive(Default)]
pub struct Tree {
    pub asked: Vec<u64>,
    records: Vec<u8>,
    pub works: Vec<usize>,
    pub paths: usize,
    pub files: Vec<Icb>,
}

/// Whether more sectors were asked for than were lent; then those are left that come before.
pub fn is_over(asked: &mut Vec<u64>, most: u64) -> bool {
    let over = asked.len() as u64 > most;
    if over {
        asked.truncate(most as usize);
    }
    over
}

/// What is under a directory, whose entries have this level: by the original's reading and listing of it, once for each path. `above` is what the
/// directories above it take of the work space. An answer number, or 0 where there are too many paths.
pub fn below(o: &mut Original, q: &Query, at: Icb, level: u32, above: usize, tree: &mut Tree) -> std::result::Result<(), u64> {
    if level > q.levels {
        return Err(TOO_DEEP);
    }
    let read = o.read(at);
    tree.asked.extend(read.asked);
    if is_over(&mut tree.asked, q.most) {
        return Err(OVER_BUDGET);
    }
    let work = above + read.value?.len();
    tree.works.push(work);
    if work > q.work {
        return Err(6);
    }
    for entry in o.list(at).value? {
        tree.paths += 1;
        if tree.paths > MOST_PATHS {
            return Err(0);
        }
        tree.records.extend([0x44, 0x45, level as u8]);
        put_entry(&mut tree.records, &entry);
        if entry.is_directory {
            below(o, q, icb(entry.icb), level + 1, work, tree)?;
        } else {
            tree.files.push(icb(entry.icb));
        }
    }
    Ok(())
}

fn showing(image: &[u8], q: &Query) -> Expected {
    if !(1..=16).contains(&q.levels) {
        return Expected::new(TOO_DEEP, Vec::new());
    }
    let (mut o, mut tree) = (Original::new(image, q.volume), Tree::default());
    let done = below(&mut o, q, q.volume.root, 1, 0, &mut tree);
    let mut e = Expected::new(done.err().unwrap_or(0), tree.asked);
    if done.is_ok() {
        let n = tree.records.len();
        e = e.bytes(tree.records, n, q.room, 5);
    }
    Expected { directories: tree.works, absurd: o.absurd, beyond: done == Err(0), ..e }
}
