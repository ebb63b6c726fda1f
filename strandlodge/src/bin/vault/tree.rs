//! `tree` and `ls -R`: all that stands below a directory.
//!
//! A directory is listed at its turn, and nothing is kept but the listings on the way down: what is drawn is written at once, and it can stop at any
//! entry. The order is that of a show (`Disc::show`), and so is what is refused; but a directory at the last level is drawn and not looked into, one that
//! can't be read is told of, and the rest goes on.

use crate::bar::Count;
use crate::commands::line;
use crate::disc::{OpenDisc, Volume};
use crate::failure::{Failure, STOPPED};
use crate::json::{Json, Rows};
use crate::limit::{self, Limit};
use crate::log::{self, Log};
use crate::names::{shown, shown_name};
use crate::sizes::Sizes;
use crate::steps::quoted;
use crate::style::{Style, listed};
use crate::wanted::Wanted;
use std::io::Write;
use strandlodge::{Asked, DirEntry, Refusal};

/// So many directories that can't be listed are named.
const NAMED: u64 = 8;

/// How far it goes.
#[derive(Debug, Clone, Copy, PartialEq, Eq)]
pub struct Bounds {
    /// The levels below where it begins.
    pub levels: usize,
    /// The sectors that are asked for.
    pub limit: Limit,
}

impl Bounds {
    /// A show has no more.
    pub const MOST_LEVELS: usize = 16;
}

impl Default for Bounds {
    fn default() -> Bounds {
        Bounds { levels: Bounds::MOST_LEVELS, limit: Limit::default() }
    }
}

/// How it is written.
#[derive(Debug, Clone, Copy, PartialEq, Eq)]
pub enum Form {
    /// A line for each entry behind the lines that lead to it, and how many there are.
    Drawn,
    /// A line with the path of each entry.
    Paths,
}

/// The entries of a directory that are still to come.
struct Level {
    entries: std::vec::IntoIter<DirEntry>,
    /// How long the path of the directory is, with a slash behind it: as it is recorded, and as it is shown.
    path: (usize, usize),
}

/// The path of an entry, as it is recorded and as it is shown.
struct Path {
    raw: Vec<u8>,
    text: String,
}

impl Path {
    /// Of a directory, with a slash behind it.
    fn of(path: &[u8]) -> Path {
        let slash = if path.is_empty() || path.ends_with(b"/") { &b""[..] } else { b"/" };
        let raw = [path, slash].concat();
        Path { text: shown(&raw), raw }
    }

    fn len(&self) -> (usize, usize) {
        (self.raw.len(), self.text.len())
    }

    /// Makes it that of an entry of the directory whose path is so long.
    fn set(&mut self, (raw, text): (usize, usize), name: &str) {
        self.raw.truncate(raw);
        self.text.truncate(text);
        self.raw.extend_from_slice(name.as_bytes());
        self.text.push_str(&shown_name(name));
    }

    fn go_in(&mut self) {
        self.raw.push(b'/');
        self.text.push('/');
    }
}

/// Where entries are written.
enum Output<'o, W: Write> {
    Lines(&'o mut W, Form, Style),
    Document(Rows<'o, W>, Style),
}

impl<W: Write> Output<'_, W> {
    fn is_long(&self) -> bool {
        let (Output::Lines(_, _, style) | Output::Document(_, style)) = self;
        style.is_long
    }

    /// The levels are those of the directories that the entry stands in, from the outermost on.
    fn entry(&mut self, levels: &[Level], entry: &DirEntry, sizes: Option<Sizes>, path: &Path) -> Result<(), Failure> {
        match self {
            Output::Lines(out, Form::Drawn, _) => line(*out, &drawn(levels, entry)),
            Output::Lines(out, Form::Paths, style) => style.line(entry, sizes, &path.raw, &path.text, *out),
            Output::Document(rows, _) => {
                let mut all = vec![("level", Json::number(levels.len() as u64)), ("path", Json::text(&path.text))];
                all.extend(Json::sized(entry, sizes));
                rows.row(&Json::Object(all))
            }
        }
    }
}

impl<W: Write> Output<'_, W> {
    /// A directory that can't be listed, behind its own row: in a document. Else it is told of beside the lines.
    fn refused(&mut self, levels: &[Level], failure: &Failure, path: &Path) -> Result<(), Failure> {
        match self {
            Output::Lines(..) => Ok(()),
            Output::Document(rows, _) => rows.row(&Json::Object(vec![
                ("level", Json::number(levels.len() as u64)),
                ("path", Json::text(&path.text)),
                ("refused", failure.json()),
            ])),
        }
    }
}

/// What was seen so far.
#[derive(Default)]
struct Seen {
    directories: u64,
    files: u64,
    /// Directories at the last level, and the path of the first.
    deep: u64,
    first: Vec<u8>,
    /// Sectors that the listings asked for, and how many may be asked for with all other calls.
    sectors: u64,
    most: u64,
    /// Directories that can't be listed, and the status for the first.
    unlisted: u64,
    status: u8,
}

impl Seen {
    fn entries(&self) -> u64 {
        self.directories + self.files
    }

    /// A directory that isn't looked into.
    fn pass(&mut self, path: &[u8]) {
        if self.deep == 0 {
            self.first = path.to_vec();
        }
        self.deep += 1;
    }

    /// Tells of a directory that can't be listed. Of many the first are named.
    fn tell(&mut self, failure: &Failure, log: &mut Log) {
        self.unlisted += 1;
        if self.unlisted == 1 {
            self.status = failure.status;
        }
        if self.unlisted <= NAMED {
            log.remarks.extend(failure.says.clone());
        }
    }
}

/// Writes all that stands below what is asked for. The paths below a place that was asked for begin there.
pub fn show<V: Volume>(
    disc: &mut OpenDisc<V>,
    wanted: &Wanted,
    form: Form,
    bounds: Bounds,
    style: Style,
    out: &mut impl Write,
) -> Result<(), Failure> {
    let (found, path) = (disc.find_listed(wanted)?, wanted.text());
    if let Some(entry) = found.entry.filter(|entry| !entry.is_directory) {
        let sizes = style.is_long.then(|| disc.sizes(entry.icb));
        return match style.is_json {
            true => Json::List(vec![Json::Object(Json::sized(&entry, sizes))]).print(out),
            false => line(out, &(sizes.map_or(String::new(), Sizes::columns) + &listed(&entry))),
        };
    }
    let is_drawn = form == Form::Drawn && !style.is_json;
    if is_drawn {
        line(out, &format!("{}/", shown(path.strip_suffix(b"/").unwrap_or(&path))))?;
    }
    let mut seen = Seen { most: bounds.limit.of(disc.bytes), ..Seen::default() };
    let below = list(disc, &path, found.icb, &mut seen).inspect_err(|_| disc.log.sums([("read_directory", seen.sectors)]))?;
    let from = Path::of(if let Wanted::Path(path) = wanted { path } else { b"" });
    let mut to = if style.is_json { Output::Document(Rows::new(out), style) } else { Output::Lines(out, form, style) };
    let done = walk(disc, from, below, bounds, &mut seen, &mut to);
    disc.log.sums([("read_directory", seen.sectors)]);
    if let Output::Document(rows, _) = to {
        rows.end()?;
        done?;
    } else {
        done?;
        if is_drawn {
            line(out, &format!("{}, {}", counted(seen.directories, "directory", "directories"), counted(seen.files, "file", "files")))?;
        }
    }
    end(disc, &seen, bounds)
}

/// How it ends: well where all was shown.
fn end<V: Volume>(disc: &mut OpenDisc<V>, seen: &Seen, bounds: Bounds) -> Result<(), Failure> {
    let deep = too_deep(disc.name, seen, bounds);
    if seen.unlisted == 0 {
        return deep;
    }
    disc.log.remarks.extend(deep.err().and_then(|failure| failure.says));
    let many = counted(seen.unlisted, "directory", "directories");
    Err(Failure::new(seen.status, format!("{}: {many} can't be listed; the rest is shown", disc.name)))
}

fn counted(n: u64, one: &str, more: &str) -> String {
    format!("{n} {}", if n == 1 { one } else { more })
}

/// The entries of a directory.
fn list<V: Volume>(disc: &mut OpenDisc<V>, path: &[u8], icb: strandlodge::LongAd, seen: &mut Seen) -> Result<Vec<DirEntry>, Failure> {
    let answer = disc.volume.read_directory(icb);
    seen.sectors = seen.sectors.saturating_add(log::sectors(&answer));
    see(disc, seen)?;
    answer.map(|answer| answer.value).map_err(|refused| disc.refused(path, Asked::ReadDirectory(icb), refused))
}

/// Fails where too much was asked for. An entry that is shown counts as one sector more, which on a sound disc it has: else a few sectors of
/// directories would be millions of lines.
fn see<V: Volume>(disc: &OpenDisc<V>, seen: &Seen) -> Result<(), Failure> {
    limit::see(disc.name, seen.most, disc.log.total().saturating_add(seen.sectors).saturating_add(seen.entries()), "")
}

/// Goes over the entries of the directory at a path, each before what stands under it.
fn walk<V: Volume, W: Write>(
    disc: &mut OpenDisc<V>,
    mut path: Path,
    entries: Vec<DirEntry>,
    bounds: Bounds,
    seen: &mut Seen,
    out: &mut Output<W>,
) -> Result<(), Failure> {
    let (mut count, mut levels) = (Count::new("entries"), vec![Level { entries: entries.into_iter(), path: path.len() }]);
    while let Some(level) = levels.last_mut() {
        let Some(entry) = level.entries.next() else {
            levels.pop();
            continue;
        };
        path.set(level.path, &entry.name);
        let sizes = out.is_long().then(|| disc.sizes(entry.icb));
        *(if entry.is_directory { &mut seen.directories } else { &mut seen.files }) += 1;
        see(disc, seen)?;
        out.entry(&levels, &entry, sizes, &path)?;
        count.at(seen.entries());
        if !entry.is_directory {
            continue;
        }
        if levels.len() == bounds.levels {
            seen.pass(&path.raw);
            continue;
        }
        let entries = match list(disc, &path.raw, entry.icb, seen) {
            Err(failure) if failure.status != STOPPED => {
                seen.tell(&failure, disc.log);
                out.refused(&levels, &failure, &path)?;
                continue;
            }
            listed => listed?,
        };
        path.go_in();
        levels.push(Level { entries: entries.into_iter(), path: path.len() });
    }
    Ok(())
}

/// The line of an entry, behind those that lead to it.
fn drawn(levels: &[Level], entry: &DirEntry) -> String {
    let mut text = String::new();
    for (n, level) in levels.iter().enumerate() {
        let (is_last, is_own) = (level.entries.as_slice().is_empty(), n + 1 == levels.len());
        text.push_str(match (is_own, is_last) {
            (true, true) => "└── ",
            (true, false) => "├── ",
            (false, true) => "    ",
            (false, false) => "│   ",
        });
    }
    text + &listed(entry)
}

/// What wasn't looked into, if anything.
fn too_deep(name: &str, seen: &Seen, bounds: Bounds) -> Result<(), Failure> {
    if seen.deep == 0 {
        return Ok(());
    }
    let many = if seen.deep == 1 { "1 directory at level".to_string() } else { format!("{} directories at level", seen.deep) };
    let first = if seen.deep == 1 { format!(": {}", quoted(&seen.first)) } else { format!("; the first is {}", quoted(&seen.first)) };
    let cure = if bounds.levels < Bounds::MOST_LEVELS { format!("; --levels {} shows more", bounds.levels + 1) } else { String::new() };
    let says = format!("{name}: {many} {}, the last level, not looked into{first}", bounds.levels);
    let mut failure = Failure::with_number(Refusal::TooDeep, says);
    failure.says = failure.says.map(|says| says + &cure);
    Err(failure)
}
