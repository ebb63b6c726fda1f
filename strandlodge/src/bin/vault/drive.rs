//! `--drive`: a device, or a file that isn't to be mapped, read a sector at a time.

use crate::args::Question;
use crate::bar::{Bar, Count};
use crate::commands::{Manner, found_json, line, ls, say_found, say_volume};
use crate::disc::{OpenDisc, Volume};
use crate::failure::Failure;
use crate::file::{PIECE, Target};
use crate::folder;
use crate::image;
use crate::json::Json;
use crate::log::Log;
use crate::names::{self, shown};
use crate::runs;
use crate::steps::Rule;
use crate::style::Style;
use crate::tree;
use crate::wanted::Wanted;
use std::ffi::OsStr;
use std::fs::File;
use std::io::{self, IoSlice, Write};
use std::os::unix::ffi::OsStrExt;
use std::path::Path;
use strandlodge::{CountedDrive, LongAd, Uncopied, Unopened};

/// Answers a question on a drive. Nothing of it is kept in memory but the directories on the way, one at a time.
pub fn ask(question: &Question, manner: Manner, name: &OsStr, out: &mut impl Write, log: &mut Log) -> Result<(), Failure> {
    let (shown, style) = (shown(name.as_bytes()), manner.style);
    let mut disc = open(name, &shown, manner.matching, log)?;
    match question {
        Question::Label => line(out, &names::shown(label(&mut disc)?.as_bytes())),
        Question::Ls { wanted } => ls(&mut disc, wanted, style, out),
        Question::Tree { wanted, form, bounds } => tree::show(&mut disc, wanted, *form, *bounds, style, out),
        Question::Stat { wanted } => stat(&mut disc, wanted, style, out),
        Question::Descriptors => volume(&mut disc, style, out),
        Question::Cat { wanted } => {
            let icb = disc.find_file(wanted)?.icb;
            copy(&mut disc, &wanted.text(), icb, &mut Metered::new(out, Count::new("MiB")), Failure::output).map(|_| ())
        }
        Question::Get { wanted, file } => {
            let (target, icb) = (Target::at(file)?, disc.find_file(wanted)?.icb);
            let mut bar = Bar::new(disc.volume.entry(icb).map_or(0, |entry| entry.information_length));
            let write = |to: &mut File| {
                let mut to = Drawn { to, bar: &mut bar };
                copy(&mut disc, &wanted.text(), icb, &mut to, |error| target.unwritten(error)).map(|_| ())
            };
            target.fill(write)
        }
        Question::GetTree { tree, folder } => folder::get(&mut disc, tree, Path::new(folder), name, out),
        Question::GetAll { .. } | Question::Probe | Question::Check { .. } | Question::Info => {
            Err(Failure::usage("--drive doesn't work with this command"))
        }
    }
}

fn open<'l>(name: &OsStr, shown: &'l str, matching: Rule, log: &'l mut Log) -> Result<OpenDisc<'l, CountedDrive<File>>, Failure> {
    let mut failed = None;
    let opened = CountedDrive::open(image::file(name)?).map_err(|unopened| {
        let refused = unopened.refused;
        failed = Some(unopened);
        refused
    });
    let volume = log.count("open", opened).map_err(|refused| match failed {
        Some(failed) => unopened(name, shown, failed),
        None => Failure::refused(shown, refused),
    })?;
    let bytes = image::length(name).map_or(0, |length| length as u64);
    // No call of a drive checks bodies.
    Ok(OpenDisc { volume, log, name: shown, matching, bytes, checked: None })
}

/// Why a disc wasn't opened: which sector can't be had, or what there is in the last one.
fn unopened(name: &OsStr, shown: &str, mut failed: Unopened<File>) -> Failure {
    let diagnosis = failed.diagnose();
    match failed.missed {
        Some(missed) if missed.error.kind() == io::ErrorKind::NotSeekable => image::unopened(name, missed.error),
        Some(missed) if diagnosis.cause.is_none() => Failure::with_number(failed.refused, format!("{shown}: {missed}")),
        _ => Failure::diagnosed(shown, &diagnosis),
    }
}

/// The volume's name, which opening has kept: no sector is asked for.
fn label(disc: &mut OpenDisc<CountedDrive<File>>) -> Result<String, Failure> {
    let label = disc.volume.label().map_err(|refused| Failure::refused(disc.name, refused))?;
    Ok(label.value)
}

/// What was opened. Volume descriptors that don't prevail, and maps, are shown of an image.
fn volume(disc: &mut OpenDisc<CountedDrive<File>>, style: Style, out: &mut impl Write) -> Result<(), Failure> {
    let label = label(disc)?;
    let drive = &disc.volume;
    if style.is_json {
        return Json::Object(vec![
            ("label", Json::text(label)),
            ("start", Json::number(drive.partition_start_sector())),
            ("partition", Json::number(drive.partition_number())),
            ("root", Json::icb(drive.root_directory_icb())),
            ("sectors", disc.log.json()),
        ])
        .print(out);
    }
    say_volume(&label, drive.partition_start_sector(), drive.partition_number(), drive.root_directory_icb(), out)?;
    line(out, &format!("sectors  {}", disc.log.sectors()))
}

/// What a directory has of an entry, and its information length. What a read gives, and where that stands, is shown of an image.
fn stat(disc: &mut OpenDisc<CountedDrive<File>>, wanted: &Wanted, style: Style, out: &mut impl Write) -> Result<(), Failure> {
    let (found, path) = (disc.find(wanted)?, wanted.text());
    let sizes = disc.sizes(found.icb);
    if style.is_json {
        let mut all = found_json(&found, &path);
        all.extend(sizes.json());
        all.push(("sectors", disc.log.json()));
        return Json::Object(all).print(out);
    }
    say_found(&found, &path, out).map_err(Failure::output)?;
    sizes.lines().iter().try_for_each(|text| line(out, text))?;
    line(out, &format!("sectors  {}", disc.log.sectors()))
}

/// Copies a file, from a drive as its sectors arrive, and gives how many bytes it has.
pub fn copy<V: Volume>(
    disc: &mut OpenDisc<V>,
    path: &[u8],
    icb: LongAd,
    to: &mut impl Write,
    unwritten: impl FnOnce(io::Error) -> Failure,
) -> Result<u64, Failure> {
    let counted = match disc.volume.copy_file(icb, to) {
        Ok(copied) => Ok(copied),
        Err(Uncopied::Refused { refused, .. }) => Err(refused),
        Err(Uncopied::Output(error)) => return Err(runs::lost(error, unwritten)),
    };
    runs::counted(disc, path, icb, counted)
}

/// A writer whose bytes fill a bar.
pub struct Drawn<'b, W> {
    pub to: W,
    pub bar: &'b mut Bar,
}

impl<W: Write> Write for Drawn<'_, W> {
    fn write(&mut self, bytes: &[u8]) -> io::Result<usize> {
        // Not all at once, so that the bar is seen to move.
        let n = self.to.write(&bytes[..bytes.len().min(PIECE)])?;
        self.bar.add(n as u64);
        Ok(n)
    }

    fn write_vectored(&mut self, slices: &[IoSlice]) -> io::Result<usize> {
        let n = self.to.write_vectored(slices)?;
        self.bar.add(n as u64);
        Ok(n)
    }

    fn flush(&mut self) -> io::Result<()> {
        self.to.flush()
    }
}

/// A writer whose bytes are counted on a terminal.
pub struct Metered<W> {
    to: W,
    bytes: u64,
    count: Count,
}

impl<W: Write> Metered<W> {
    pub fn new(to: W, count: Count) -> Metered<W> {
        Metered { to, bytes: 0, count }
    }
}

impl<W: Write> Write for Metered<W> {
    fn write(&mut self, bytes: &[u8]) -> io::Result<usize> {
        let n = self.to.write(bytes)?;
        self.bytes += n as u64;
        self.count.at(self.bytes >> 20);
        Ok(n)
    }

    fn write_vectored(&mut self, slices: &[IoSlice]) -> io::Result<usize> {
        let n = self.to.write_vectored(slices)?;
        self.bytes += n as u64;
        self.count.at(self.bytes >> 20);
        Ok(n)
    }

    fn flush(&mut self) -> io::Result<()> {
        self.to.flush()
    }
}
