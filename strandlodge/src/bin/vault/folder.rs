//! `get -r`: all that stands below folders of a disc, or all of the disc, to a folder.
//!
//! First the disc is walked, and what is to be written noted; then it is written. A directory is taken once, however many entries name it: so the
//! walk ends on directories that hold each other. No name of the disc leads out of the folder: each is made safe (`safe`), and no link in the folder is
//! followed. Nothing is written over what the same run wrote (`store`).

use crate::bar::{Bar, Count};
use crate::disc::{OpenDisc, Volume};
use crate::drive::{Drawn, copy};
use crate::failure::{Failure, NO_OUTPUT, STOPPED, UNREAD};
use crate::limit::{self, Limit};
use crate::many::{Lines, Missed};
use crate::names::{shown, shown_name};
use crate::records::FileEntry;
use crate::safe;
use crate::steps::{quoted, trimmed};
use crate::store::{Put, Store};
use crate::sums::Sums;
use std::collections::HashSet;
use std::ffi::{OsStr, OsString};
use std::io::Write;
use std::path::{Path, PathBuf};
use strandlodge::{Asked, DirEntry, LongAd};

/// A path has no more bytes on most systems. What would stand deeper isn't walked.
const DEEPEST: usize = 4000;

/// The paths of what is to be written have so many bytes together at most.
const MOST_BYTES: usize = 256 << 20;

/// What is asked for.
#[derive(Debug, PartialEq, Eq)]
pub struct Tree {
    /// All below each, or where there is none all of the disc.
    pub paths: Vec<Vec<u8>>,
    pub limit: Limit,
    /// The names are those that every file system takes.
    pub is_portable: bool,
    /// A file for the sums of what is written.
    pub sums: Option<OsString>,
}

/// Something to be written: where it stands on the disc, and where it goes.
struct Item {
    path: Vec<u8>,
    /// The same as `ls -R` writes it.
    text: String,
    icb: LongAd,
    to: PathBuf,
    /// Its name is made up, since another entry has its own in another case.
    is_twin: bool,
    /// About how many bytes a file has; a directory is made.
    file: Option<u64>,
}

/// What is to be written, a directory before what stands in it.
struct Plan {
    items: Vec<Item>,
    /// The bytes of their paths.
    bytes: usize,
    /// The sectors of the directories that were come to: without maps several references lead to one.
    taken: HashSet<u64>,
    /// The sectors that copying the files will ask for, with one for each directory that is named; and how many there may be together with those that
    /// were asked for.
    reads: u64,
    most: u64,
    missed: Missed,
    count: Count,
    is_portable: bool,
}

/// Where an entry stands, and where it goes.
struct Spot {
    path: Vec<u8>,
    text: String,
    to: PathBuf,
    is_twin: bool,
}

impl Spot {
    /// One below a directory.
    fn below(&self, name: &str, given: &safe::Name) -> Spot {
        let slash = if self.path.is_empty() { "" } else { "/" };
        let path = [&self.path, slash.as_bytes(), name.as_bytes()].concat();
        let text = [&self.text, slash, &shown_name(name)].concat();
        Spot { path, text, to: self.to.join(&given.own), is_twin: given.is_twin }
    }
}

/// Writes what stands below each path, or all of the disc, to a folder.
pub fn get<V: Volume>(disc: &mut OpenDisc<V>, tree: &Tree, folder: &Path, image: &OsStr, out: &mut impl Write) -> Result<(), Failure> {
    let sums = tree.sums.as_ref().map(|file| Sums::new(file, image)).transpose()?;
    let Plan { items, mut missed, count, .. } = plan(disc, tree, folder)?;
    drop(count);
    let all = items.len() + missed.files;
    let store = Store::new(folder, image, false, items.iter().map(|item| &*item.to))?;
    let written = write(disc, &items, store, &mut missed, out)?;
    if let Some(sums) = sums {
        sums.write(folder, &written)?;
    }
    missed.end(disc.name, all, "files and folders")
}

/// Walks the disc.
fn plan<V: Volume>(disc: &mut OpenDisc<V>, tree: &Tree, folder: &Path) -> Result<Plan, Failure> {
    let (taken, missed, most) = (HashSet::new(), Missed::default(), tree.limit.of(disc.bytes));
    let (items, count, is_portable) = (Vec::new(), Count::new("entries"), tree.is_portable);
    let mut plan = Plan { items, bytes: 0, taken, reads: 0, most, missed, count, is_portable };
    let top = || Spot { path: Vec::new(), text: String::new(), to: folder.to_path_buf(), is_twin: false };
    let mut entries = Vec::new();
    if tree.paths.is_empty() {
        let root = disc.volume.root_directory_icb();
        plan.below(disc, top(), root)?;
    }
    for path in &tree.paths {
        match disc.find_path(path) {
            Ok(found) => match found.entry {
                Some(entry) => entries.push((trimmed(path), entry)),
                None => plan.below(disc, top(), found.icb)?,
            },
            Err(failure) => plan.missed.tell(failure, disc),
        }
    }
    let names = safe::names(entries.iter().map(|(_, entry)| &*entry.name), is_portable);
    for ((path, entry), name) in entries.iter().zip(names) {
        let spot = Spot { path: path.to_vec(), text: shown(path), to: folder.join(name.own), is_twin: name.is_twin };
        plan.add(disc, spot, entry)?;
    }
    Ok(plan)
}

impl Plan {
    /// Fails where too much was asked for, or will be.
    fn see<V: Volume>(&self, disc: &OpenDisc<V>) -> Result<(), Failure> {
        limit::see(disc.name, self.most, disc.log.total().saturating_add(self.reads), "; nothing was written")
    }

    /// Notes an entry, and what stands below it.
    fn add<V: Volume>(&mut self, disc: &mut OpenDisc<V>, spot: Spot, entry: &DirEntry) -> Result<(), Failure> {
        let first = self.items.len();
        self.note(disc, spot, entry)?;
        match self.items.get(first).filter(|_| entry.is_directory) {
            Some(item) => self.below(disc, item.spot(), entry.icb),
            None => Ok(()),
        }
    }

    /// Notes all that stands below a directory, each before what stands in it.
    fn below<V: Volume>(&mut self, disc: &mut OpenDisc<V>, spot: Spot, icb: LongAd) -> Result<(), Failure> {
        self.taken.extend(disc.volume.icb_sector(icb));
        let mut pending = vec![(spot, icb)];
        while let Some((spot, icb)) = pending.pop() {
            let listed = disc.volume.read_directory(icb);
            let listed = disc.log.add("read_directory", listed);
            self.see(disc)?;
            match listed {
                // The last one pushed is the next one looked at.
                Ok(entries) => {
                    disc.see_directory(&spot.path, icb);
                    pending.extend(self.entries(disc, &spot, &entries)?.into_iter().rev())
                }
                Err(refused) => self.missed.tell(disc.refused(&spot.path, Asked::ReadDirectory(icb), refused), disc),
            }
        }
        Ok(())
    }

    /// Notes the entries of a directory, and gives the directories among them.
    fn entries<V: Volume>(&mut self, disc: &mut OpenDisc<V>, spot: &Spot, entries: &[DirEntry]) -> Result<Vec<(Spot, LongAd)>, Failure> {
        let before = self.items.len();
        let names = safe::names(entries.iter().map(|entry| &*entry.name), self.is_portable);
        for (entry, name) in entries.iter().zip(&names) {
            self.note(disc, spot.below(&entry.name, name), entry)?;
        }
        let directories = self.items[before..].iter().filter(|item| item.file.is_none());
        Ok(directories.map(|item| (item.spot(), item.icb)).collect())
    }

    /// Notes an entry, unless it is a directory that was come to already, or stands too deep.
    fn note<V: Volume>(&mut self, disc: &mut OpenDisc<V>, spot: Spot, entry: &DirEntry) -> Result<(), Failure> {
        let Spot { path, text, to, is_twin } = spot;
        self.bytes = self.bytes.saturating_add(path.len() + text.len() + to.as_os_str().len());
        if self.bytes > MOST_BYTES {
            let why = format!("all paths together have more than {MOST_BYTES} bytes: copy one folder at a time; nothing was written");
            return Err(Failure::new(STOPPED, format!("{}: {why}", disc.name)));
        }
        // A directory that is named again asks for nothing, and is told of.
        self.reads = self.reads.saturating_add(if entry.is_directory { 1 } else { disc.volume.reads(entry.icb) });
        self.see(disc)?;
        let about = |says: &str| format!("{}: {} {says}", disc.name, quoted(&path));
        if to.as_os_str().len() > DEEPEST {
            let says = about("is too deep to be written");
            self.missed.tell(Failure::new(NO_OUTPUT, says), disc);
            return Ok(());
        }
        let is_new = |sector| self.taken.insert(sector);
        if entry.is_directory && !disc.volume.icb_sector(entry.icb).is_none_or(is_new) {
            let says = about("is a directory that an earlier entry also names: it is not copied again");
            self.missed.tell(Failure::new(UNREAD, says), disc);
            return Ok(());
        }
        let bytes = |found: FileEntry| found.information_length;
        let file = if entry.is_directory { None } else { Some(disc.volume.entry(entry.icb).map_or(0, bytes)) };
        self.items.push(Item { path, text, icb: entry.icb, to, is_twin, file });
        self.count.at(self.items.len() as u64);
        Ok(())
    }
}

impl Item {
    fn spot(&self) -> Spot {
        Spot { path: self.path.clone(), text: self.text.clone(), to: self.to.clone(), is_twin: self.is_twin }
    }
}

/// Makes the directories and writes the files, and gives where these are. What can't be written is told of, and the rest goes on.
fn write<V: Volume>(
    disc: &mut OpenDisc<V>,
    items: &[Item],
    mut store: Store,
    missed: &mut Missed,
    out: &mut impl Write,
) -> Result<Vec<PathBuf>, Failure> {
    let total = items.iter().filter_map(|item| item.file).fold(0u64, u64::saturating_add);
    let (mut bar, mut lines, mut unmade) = (Bar::new(total), Lines::default(), HashSet::new());
    for item in items {
        // Its folder isn't there, or is something else, and was told of.
        if item.to.parent().is_some_and(|folder| unmade.contains(folder)) {
            unmade.insert(&*item.to);
            missed.files += 1;
            continue;
        }
        let done = match item.file {
            None => store.folder(&item.to).map(|at| (at, None)),
            Some(_) => tried(disc, item, &mut store, &mut bar, &mut lines, missed, out).map(|put| (put.at.clone(), Some(put))),
        };
        match done {
            Ok((at, put)) => {
                missed.see(disc, &item.text, &item.to, &at, item.is_twin);
                bar.wipe();
                put.map_or(Ok(()), |put| lines.add(&item.text, put, out))?;
            }
            Err(failure) => {
                unmade.extend(item.file.is_none().then_some(&*item.to));
                missed.tell(failure, disc);
            }
        }
        if store.is_full() {
            lines.end(&mut store, missed, disc, out)?;
        }
    }
    lines.end(&mut store, missed, disc, out)?;
    Ok(lines.written)
}

/// Writes one file; where that fails, again once those that wait have their names: they may be what there is no room for.
fn tried<V: Volume>(
    disc: &mut OpenDisc<V>,
    item: &Item,
    store: &mut Store,
    bar: &mut Bar,
    lines: &mut Lines,
    missed: &mut Missed,
    out: &mut impl Write,
) -> Result<Put, Failure> {
    let first = put(disc, item, store, bar);
    if !lines.waits() || first.as_ref().is_ok() || first.as_ref().is_err_and(|failure| failure.status != NO_OUTPUT) {
        return first;
    }
    lines.end(store, missed, disc, out)?;
    put(disc, item, store, bar)
}

/// Writes one file.
fn put<V: Volume>(disc: &mut OpenDisc<V>, item: &Item, store: &mut Store, bar: &mut Bar) -> Result<Put, Failure> {
    store.file(&item.to, |file| {
        let unwritten = |error| Failure::file(NO_OUTPUT, item.to.as_os_str(), format!("can't write this file: {error}"));
        copy(disc, &item.path, item.icb, &mut Drawn { to: file, bar }, unwritten)
    })
}
