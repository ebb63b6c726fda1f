//! `get -o`: many files, each to its own name in a folder.

use crate::bar::Bar;
use crate::commands::line;
use crate::disc::OpenDisc;
use crate::drive::Drawn;
use crate::failure::{Failure, NO_OUTPUT, UNREAD, USAGE};
use crate::file::apart;
use crate::names::shown;
use crate::runs::{self, Span};
use crate::steps::quoted;
use crate::store::{Put, Store, Waiting};
use crate::style::bytes;
use crate::wanted::Wanted;
use std::ffi::OsStr;
use std::io::Write;
use std::os::unix::ffi::OsStrExt;
use std::path::{Path, PathBuf};
use strandlodge::{Counted, LongAd};

/// A file that is there, and where it goes.
struct Sought<'p> {
    path: &'p [u8],
    icb: LongAd,
    to: PathBuf,
}

/// What couldn't be had: how many files, and the status for that; and how many were written under another name than their own.
#[derive(Default)]
pub struct Missed {
    pub files: usize,
    pub status: u8,
    twins: usize,
}

impl Missed {
    /// Tells of one. That a file can't be written is the worse status.
    pub fn tell<V>(&mut self, failure: Failure, disc: &mut OpenDisc<V>) {
        self.files += 1;
        self.status = self.status.max(if failure.status == NO_OUTPUT { NO_OUTPUT } else { UNREAD });
        disc.log.remarks.extend(failure.says);
    }

    /// Looks at where one went, and tells of it where its own name was taken.
    pub fn see<V>(&mut self, disc: &mut OpenDisc<V>, path: &str, to: &Path, at: &Path, is_twin: bool) {
        if !is_twin && at.file_name() == to.file_name() {
            return;
        }
        self.twins += 1;
        self.status = NO_OUTPUT;
        let why = "its own name is taken there (does the file system ignore case?)";
        disc.log.remarks.push(format!("{}: \"{path}\" is written to {}: {why}", disc.name, shown(at.as_os_str().as_bytes())));
    }

    /// How a command ends that had so many to write.
    pub fn end(&self, name: &str, all: usize, what: &str) -> Result<(), Failure> {
        let files = (self.files > 0).then(|| format!("{} of {all} {what} not written", self.files));
        let twins = (self.twins > 0).then(|| format!("{} of {all} {what} not under their own names", self.twins));
        let says: Vec<String> = files.into_iter().chain(twins).collect();
        if says.is_empty() { Ok(()) } else { Err(Failure::new(self.status, format!("{name}: {}", says.join(", ")))) }
    }
}

/// The lines of what was written, in its order. Behind one of a file that waits the others wait too.
#[derive(Default)]
pub struct Lines {
    held: Vec<(String, PathBuf, Option<Waiting>)>,
    pub written: Vec<PathBuf>,
}

impl Lines {
    pub fn add(&mut self, path: &str, put: Put, out: &mut impl Write) -> Result<(), Failure> {
        let text = format!("{path}: {}, to {}", bytes(put.length), shown(put.at.as_os_str().as_bytes()));
        if self.held.is_empty() && put.waits.is_none() {
            self.written.push(put.at);
            return line(out, &text);
        }
        self.held.push((text, put.at, put.waits));
        Ok(())
    }

    /// Has all written to the disk; then those that wait take their names.
    pub fn end<V>(&mut self, store: &mut Store, missed: &mut Missed, disc: &mut OpenDisc<V>, out: &mut impl Write) -> Result<(), Failure> {
        if self.held.is_empty() && self.written.is_empty() {
            return Ok(());
        }
        store.sync()?;
        let waited = self.waits();
        for (text, at, waits) in self.held.drain(..) {
            match waits.map_or(Ok(()), Waiting::end) {
                Ok(()) => {
                    self.written.push(at);
                    line(out, &text)?;
                }
                Err(failure) => missed.tell(failure, disc),
            }
        }
        // Their names too.
        if waited { store.sync() } else { Ok(()) }
    }

    /// Whether there is one that waits.
    pub fn waits(&self) -> bool {
        !self.held.is_empty()
    }
}

/// Writes each file that a path gives to its own name, as the disc has it, in a folder, and prints a line for it. What can't be had is told of, and
/// the rest goes on.
pub fn get(disc: &mut OpenDisc<Counted>, paths: &[Vec<u8>], folder: &Path, image: &OsStr, out: &mut impl Write) -> Result<(), Failure> {
    let (mut wanted, mut missed) = (Vec::new(), Missed::default());
    for path in paths {
        match find(disc, path, folder, image, &wanted) {
            Ok(one) => wanted.push(one),
            Err(failure) => missed.tell(failure, disc),
        }
    }
    let mut store = Store::new(folder, image, true, wanted.iter().map(|file| &*file.to))?;
    let mut lines = Lines::default();
    for file in &wanted {
        match put(disc, file, &mut store) {
            Ok(put) => {
                missed.see(disc, &shown(file.path), &file.to, &put.at, false);
                lines.add(&shown(file.path), put, out)?;
            }
            Err(failure) => missed.tell(failure, disc),
        }
        if store.is_full() {
            lines.end(&mut store, &mut missed, disc, out)?;
        }
    }
    lines.end(&mut store, &mut missed, disc, out)?;
    missed.end(disc.name, paths.len(), "files")
}

/// What a path gives, and where it goes: to a name that is neither the image's nor another path's.
fn find<'p>(disc: &mut OpenDisc<Counted>, path: &'p [u8], folder: &Path, image: &OsStr, others: &[Sought]) -> Result<Sought<'p>, Failure> {
    let found = disc.find_file(&Wanted::Path(path.to_vec()))?;
    let name = found.entry.map(|entry| entry.name).unwrap_or_default();
    let to = folder.join(name);
    apart(image, to.as_os_str())?;
    if let Some(other) = others.iter().find(|other| other.to == to) {
        let says = format!("{} and {} would both be written to {}", quoted(path), quoted(other.path), shown(to.as_os_str().as_bytes()));
        return Err(Failure::new(USAGE, format!("{}: {says}", disc.name)));
    }
    Ok(Sought { path, icb: found.icb, to })
}

/// Writes one file.
fn put(disc: &mut OpenDisc<Counted>, file: &Sought, store: &mut Store) -> Result<Put, Failure> {
    let runs = runs::find(disc, file.path, file.icb, Span::default())?;
    let (length, mut bar) = (runs.len(), Bar::new(runs.len()));
    store.file(&file.to, |to| {
        let unwritten = |error| Failure::file(NO_OUTPUT, file.to.as_os_str(), format!("can't write this file: {error}"));
        runs::write(runs, &mut Drawn { to, bar: &mut bar }).map_err(|error| runs::lost(error, unwritten))?;
        Ok(length)
    })
}
