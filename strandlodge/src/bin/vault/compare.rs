//! `compare`: what two images don't have in common, by path: paths that one alone has, and files whose bytes differ.
//!
//! Both are walked first, as `get -r` walks one: a directory is listed once, however many entries name it. Where a path is there several times the first
//! stands for the first. Nothing is kept of a file: its bytes are held to the other's where they stand.

use crate::bar::Count;
use crate::commands::line;
use crate::disc::OpenDisc;
use crate::failure::{Failure, STOPPED, UNREAD};
use crate::image::Image;
use crate::json::{Json, Rows};
use crate::limit;
use crate::log::Log;
use crate::names::{shown, shown_name};
use crate::runs::{self, Span};
use crate::steps::{Rule, quoted};
use crate::survey::Taken;
use std::collections::{HashMap, HashSet, VecDeque};
use std::ffi::OsString;
use std::io::Write;
use std::os::unix::ffi::OsStrExt;
use strandlodge::{Asked, Counted, DirEntry, LongAd, Runs};

/// As of diff: they differ. What can't be had is never this number.
const DIFFERENT: u8 = 1;

/// The paths of an image have so many bytes together at most.
const MOST_BYTES: usize = 256 << 20;

/// An entry of an image.
struct Entry {
    path: Vec<u8>,
    /// The same as `ls -R` writes it.
    text: String,
    icb: LongAd,
    is_directory: bool,
}

/// An image that is compared.
struct Side<'a, 'l> {
    disc: OpenDisc<'l, Counted<'a>>,
    most: u64,
    /// The bytes of its paths, and how many entries it has.
    bytes: usize,
    entries: u64,
    /// What couldn't be read, directories and files.
    unread: usize,
}

/// Prints what two images don't have in common.
pub fn compare(images: &[OsString; 2], taken: Taken, is_json: bool, out: &mut impl Write, log: &mut Log) -> Result<(), Failure> {
    let names = images.each_ref().map(|name| shown(name.as_bytes()));
    let (one, other) = (Image::open(&images[0], taken.copied)?, Image::open(&images[1], taken.copied)?);
    let (mut first, mut second) = (Log::default(), Log::default());
    let both = Side::open(&one, &names[0], taken, &mut first)
        .and_then(|one| Ok([one, Side::open(&other, &names[1], taken, &mut second)?]))
        .and_then(|mut both| held(&mut both, Found::new(is_json, out)));
    log.join(first);
    log.join(second);
    if both.map_err(apart)? { Err(Failure { status: DIFFERENT, says: None }) } else { Ok(()) }
}

/// What is refused by 1 isn't a difference.
fn apart(failure: Failure) -> Failure {
    let status = if failure.status == DIFFERENT { UNREAD } else { failure.status };
    Failure { status, ..failure }
}

/// Holds the entries of two images to each other, and gives whether anything differs.
fn held<W: Write>([one, other]: &mut [Side; 2], mut found: Found<W>) -> Result<bool, Failure> {
    let (entries, twins, mut count) = (one.walk()?, other.walk()?, Count::new("entries"));
    let mut places = places(&twins);
    for (n, entry) in entries.iter().enumerate() {
        match places.get_mut(&*entry.text).and_then(VecDeque::pop_front).map(|at| &twins[at]) {
            None => found.only(entry, one.disc.name)?,
            Some(twin) if twin.is_directory != entry.is_directory => found.differs(entry, "kind")?,
            Some(_) if entry.is_directory => {}
            Some(twin) => {
                // Both, so that what can't be read on either is told of.
                let (runs, others) = (one.runs(entry)?, other.runs(twin)?);
                if runs.zip(others).is_some_and(|(runs, others)| !is_same(runs, others)) {
                    found.differs(entry, "bytes")?;
                }
            }
        }
        count.at(n as u64);
    }
    let mut left: Vec<usize> = places.into_values().flatten().collect();
    left.sort_unstable();
    left.into_iter().try_for_each(|at| found.only(&twins[at], other.disc.name))?;
    drop(count);
    let (any, unread) = (found.end()?, one.unread + other.unread);
    if unread > 0 {
        let says = format!("{unread} files and folders could not be compared");
        return Err(Failure::new(UNREAD, format!("{} and {}: {says}", one.disc.name, other.disc.name)));
    }
    Ok(any)
}

/// Where each path stands, in the image's order.
fn places(entries: &[Entry]) -> HashMap<&str, VecDeque<usize>> {
    let mut places: HashMap<&str, VecDeque<usize>> = HashMap::new();
    for (at, entry) in entries.iter().enumerate() {
        places.entry(&entry.text).or_default().push_back(at);
    }
    places
}

impl<'a, 'l> Side<'a, 'l> {
    fn open(image: &'a [u8], name: &'l str, taken: Taken, log: &'l mut Log) -> Result<Side<'a, 'l>, Failure> {
        let disc = OpenDisc::open(image, taken.how, name, Rule::default(), log)?;
        Ok(Side { most: taken.limit.of(disc.bytes), disc, bytes: 0, entries: 0, unread: 0 })
    }

    /// Fails where too much was asked for. An entry counts as one sector more, as in a tree.
    fn see(&self) -> Result<(), Failure> {
        limit::see(self.disc.name, self.most, self.disc.log.total().saturating_add(self.entries), "")
    }

    /// Tells of what can't be read.
    fn tell(&mut self, says: Option<String>) {
        self.unread += 1;
        self.disc.log.remarks.extend(says);
    }

    /// All that the image holds, a directory before what stands in it.
    fn walk(&mut self) -> Result<Vec<Entry>, Failure> {
        let root = self.disc.volume.root_directory_icb();
        let (mut all, mut taken): (Vec<Entry>, HashSet<u64>) = (Vec::new(), self.disc.volume.icb_sector(root).into_iter().collect());
        let mut pending = vec![(Vec::new(), String::new(), root)];
        while let Some((path, text, icb)) = pending.pop() {
            let listed = self.disc.log.add("read_directory", self.disc.volume.read_directory(icb));
            self.see()?;
            let entries = match listed {
                Ok(entries) => entries,
                Err(refused) => {
                    let failure = self.disc.refused(&path, Asked::ReadDirectory(icb), refused);
                    self.tell(failure.says);
                    continue;
                }
            };
            let entries: Vec<Entry> = entries.iter().map(|entry| Entry::below(&path, &text, entry)).collect();
            let first = pending.len();
            for entry in entries.iter().filter(|entry| entry.is_directory) {
                if self.disc.volume.icb_sector(entry.icb).is_none_or(|sector| taken.insert(sector)) {
                    pending.push((entry.path.clone(), entry.text.clone(), entry.icb));
                } else {
                    self.again(entry);
                }
            }
            // The last one pushed is the next one looked at.
            pending[first..].reverse();
            entries.iter().try_for_each(|entry| self.note(entry))?;
            all.extend(entries);
        }
        Ok(all)
    }

    fn again(&mut self, entry: &Entry) {
        let says = "is a directory that another entry also names: its contents are not compared again";
        self.tell(Some(format!("{}: {} {says}", self.disc.name, quoted(&entry.path))));
    }

    /// Counts an entry.
    fn note(&mut self, entry: &Entry) -> Result<(), Failure> {
        self.entries += 1;
        self.bytes = self.bytes.saturating_add(entry.path.len() + entry.text.len());
        if self.bytes > MOST_BYTES {
            let why = format!("all paths together have more than {MOST_BYTES} bytes");
            return Err(Failure::new(STOPPED, format!("{}: {why}", self.disc.name)));
        }
        self.see()
    }

    /// A file's bytes where they stand; none where it can't be read, which is told of.
    fn runs(&mut self, entry: &Entry) -> Result<Option<Runs<'a>>, Failure> {
        let wanted = self.disc.log.add("read_file", runs::wanted(&self.disc.volume, entry.icb, Span::default()));
        self.see()?;
        match wanted {
            Ok(runs) => Ok(Some(runs)),
            Err(refused) => {
                let failure = runs::refused(&mut self.disc, &entry.path, entry.icb, refused);
                self.tell(failure.says);
                Ok(None)
            }
        }
    }
}

impl Entry {
    fn below(path: &[u8], text: &str, entry: &DirEntry) -> Entry {
        let slash = if path.is_empty() { "" } else { "/" };
        let path = [path, slash.as_bytes(), entry.name.as_bytes()].concat();
        Entry { path, text: [text, slash, &shown_name(&entry.name)].concat(), icb: entry.icb, is_directory: entry.is_directory }
    }
}

/// Whether two files have the same bytes, however these are cut into runs.
fn is_same(one: Runs, other: Runs) -> bool {
    if one.len() != other.len() {
        return false;
    }
    let (mut one, mut other) = (one.filter(|run| !run.is_empty()), other.filter(|run| !run.is_empty()));
    let (mut left, mut right): (&[u8], &[u8]) = (&[], &[]);
    loop {
        if left.is_empty() {
            left = one.next().unwrap_or_default();
        }
        if right.is_empty() {
            right = other.next().unwrap_or_default();
        }
        let both = left.len().min(right.len());
        if both == 0 {
            return left.len() == right.len();
        }
        if left[..both] != right[..both] {
            return false;
        }
        (left, right) = (&left[both..], &right[both..]);
    }
}

/// Where differences are written, and whether there were any.
struct Found<'o, W: Write> {
    to: Output<'o, W>,
    any: bool,
}

enum Output<'o, W: Write> {
    Lines(&'o mut W),
    Document(Rows<'o, W>),
}

impl<'o, W: Write> Found<'o, W> {
    fn new(is_json: bool, out: &'o mut W) -> Found<'o, W> {
        Found { to: if is_json { Output::Document(Rows::new(out)) } else { Output::Lines(out) }, any: false }
    }

    /// One image alone has it.
    fn only(&mut self, entry: &Entry, image: &str) -> Result<(), Failure> {
        self.say(entry, &format!("only on {image}"), "only", Some(image))
    }

    /// Both have it, and it isn't the same.
    fn differs(&mut self, entry: &Entry, what: &'static str) -> Result<(), Failure> {
        let says = if what == "kind" { "a file and a directory" } else { "bytes differ" };
        self.say(entry, says, what, None)
    }

    fn say(&mut self, entry: &Entry, says: &str, what: &str, image: Option<&str>) -> Result<(), Failure> {
        self.any = true;
        match &mut self.to {
            Output::Lines(out) => line(*out, &format!("{}{}: {says}", entry.text, if entry.is_directory { "/" } else { "" })),
            Output::Document(rows) => rows.row(&Json::Object(vec![
                ("path", Json::text(&entry.text)),
                ("kind", Json::kind(entry.is_directory)),
                ("differs", Json::text(what)),
                ("image", Json::maybe(image, Json::text)),
            ])),
        }
    }

    fn end(self) -> Result<bool, Failure> {
        if let Output::Document(rows) = self.to {
            rows.end()?;
        }
        Ok(self.any)
    }
}

#[cfg(test)]
mod tests {
    use super::*;

    #[test]
    fn bytes_are_the_same_however_they_are_cut() {
        let bytes: Vec<u8> = (0..9000u32).map(|i| (i % 251) as u8).collect();
        let mut other = bytes.clone();
        other[8999] ^= 1;
        let image = strandlodge::write(&[("a", &bytes[..]), ("b", &bytes), ("c", &other), ("d", &bytes[1..]), ("e", b"")]).unwrap();
        let vault = strandlodge::Disc::open(&image).unwrap();
        let runs = |name: &str| vault.runs(vault.lookup(name).unwrap()).unwrap();
        assert!(is_same(runs("a"), runs("b")) && is_same(runs("e"), runs("e")));
        assert!(!is_same(runs("a"), runs("c")) && !is_same(runs("a"), runs("d")) && !is_same(runs("e"), runs("a")));
        assert!(is_same(runs("a").range(1, 9000), runs("d")));
    }

    #[test]
    fn a_refusal_is_no_difference() {
        let status = |status| apart(Failure { status, says: None }).status;
        assert_eq!([0, 1, 2, 64, 66, 68].map(status), [0, UNREAD, 2, 64, 66, 68]);
    }
}
