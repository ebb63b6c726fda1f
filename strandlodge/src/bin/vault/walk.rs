//! The walk over what a partition holds: every entry once, with its continuations, and the identifiers of every directory.
//!
//! It goes as the calls do: through the volume's maps where it was opened so. It ends on any disc: an ICB's block is taken once as a file and once
//! as a directory, however many identifiers name it, and only where it stands in the image; a continuation's block is taken once. So what is kept is
//! bounded by the image's sectors, four times over where there are four partitions: a name for each such block, and one directory's bytes at a time.
//! Directories whose extents overlap may have many times the image's bytes all the same: so what the calls ask for is bounded too.

use crate::failure::Failure;
use crate::log;
use crate::names::shown;
use crate::records::{self, Descriptor, FileEntry, FileIdentifier};
use crate::report::{Place, Report};
use std::collections::HashSet;
use std::io::Write;
use strandlodge::{AllocExtent, Asked, Counted, Diagnosis, LbAddr, LongAd, Refusal, Refused, SECTOR_SIZE};

/// Of a file identifier (ECMA-167 4/14.4).
const IDENTIFIER: usize = 38;
const DIRECTORY: u8 = 2;
const DELETED: u8 = 4;
const PARENT: u8 = 8;

/// Of an allocation extent (4/14.5), and of a chain: docs/RULES.md, 6.16.
const HEADER: usize = 24;
const CONTINUATION: u8 = 3;
const LONGEST: u32 = 1 << 20;
const MOST_CONTINUATIONS: usize = 32;

const EMBEDDED: u8 = 3;

/// So many names of a path are printed, the last ones: what a disc makes deeper is a trick.
const DEEPEST: usize = 64;

/// Where nothing stands.
const NOWHERE: Place = Place { sector: u64::MAX, block: Some(u64::MAX) };

/// A sector's bytes, where it stands in the image.
pub fn sector(image: &[u8], number: u64) -> Option<&[u8]> {
    run(image, number, 1)
}

/// The bytes of some sectors, where all of them stand in the image.
fn run(image: &[u8], first: u64, count: u64) -> Option<&[u8]> {
    let from = usize::try_from(first.checked_mul(SECTOR_SIZE)?).ok()?;
    let length = usize::try_from(count.checked_mul(SECTOR_SIZE)?).ok()?;
    image.get(from..)?.get(..length)
}

/// An entry to be looked at.
struct Visit {
    icb: LongAd,
    /// Where the entry stands.
    place: Place,
    is_directory: bool,
    /// Its place among the names; none is the root.
    name: Option<usize>,
}

/// A name, and that of the directory that it stands in.
struct Name {
    above: Option<usize>,
    name: Vec<u8>,
}

pub struct Walk<'a, 'r, 'o, W> {
    image: &'a [u8],
    vault: Counted<'a>,
    report: &'r mut Report<'o, W>,
    names: Vec<Name>,
    /// Blocks to be looked at or looked at already, each with whether it is as a directory's.
    taken: HashSet<(Place, bool)>,
    /// Blocks whose entry was looked at, and those whose continuation was.
    entries: HashSet<Place>,
    continuations: HashSet<Place>,
    pending: Vec<Visit>,
    /// What the calls asked for, added up for each, and what they may ask for together.
    pub sectors: [(&'static str, u64); 3],
    most: u64,
}

impl<'a, 'r, 'o, W: Write> Walk<'a, 'r, 'o, W> {
    pub fn new(image: &'a [u8], vault: Counted<'a>, most: u64, report: &'r mut Report<'o, W>) -> Self {
        let sectors = [("part", 0), ("read_file", 0), ("extents", 0)];
        let (taken, entries, continuations) = Default::default();
        Walk { image, vault, report, names: Vec::new(), taken, entries, continuations, pending: Vec::new(), sectors, most }
    }

    /// Notes a call's count, refused or not.
    fn count<T>(&mut self, call: usize, answer: strandlodge::Answered<T>) -> Result<T, Refusal> {
        self.sectors[call].1 = self.sectors[call].1.saturating_add(log::sectors(&answer));
        answer.map(|answer| answer.value).map_err(|refused| refused.why)
    }

    /// The file set descriptor, in this place.
    pub fn file_set(&mut self, at: Option<LbAddr>) -> Result<(), Failure> {
        let Some(place) = at.and_then(|at| Some(Place::of(at.block, self.vault.sector_of(at)?))) else {
            return Ok(());
        };
        let bytes = sector(self.image, place.sector).unwrap_or_default();
        records::tag(bytes).map_or(Ok(()), |tag| self.report.descriptor(|| "the volume".to_string(), tag, place, bytes))
    }

    /// The root, and all below it; or false where that is more than may be asked for.
    pub fn root(&mut self) -> Result<bool, Failure> {
        self.meet(self.vault.root_directory_icb(), true, None, None)?;
        while let Some(visit) = self.pending.pop() {
            self.visit(&visit)?;
            if self.sectors.iter().fold(0, |sum: u64, (_, sectors)| sum.saturating_add(*sectors)) > self.most {
                return Ok(false);
            }
        }
        Ok(true)
    }

    /// An ICB that something names: to be looked at, unless it is taken already. The root has no name.
    fn meet(&mut self, icb: LongAd, is_directory: bool, above: Option<usize>, name: Option<Vec<u8>>) -> Result<(), Failure> {
        let place = match self.standing(icb) {
            Ok(place) => place,
            Err(why) => return self.report.unread(&path(&self.names, above, name.as_deref()), &self.refused(icb, why)),
        };
        if self.taken.insert((place, is_directory)) {
            let name = name.map(|name| {
                self.names.push(Name { above, name });
                self.names.len() - 1
            });
            self.pending.push(Visit { icb, place, is_directory, name });
        }
        Ok(())
    }

    /// Where the entry of an ICB stands, in the image; or why it can't be read.
    fn standing(&self, icb: LongAd) -> Result<Place, Refusal> {
        if icb.length == 0 {
            // It names nothing (docs/RULES.md, 6.1).
            return Err(Refusal::Malformed);
        }
        let at = self.vault.icb_sector(icb).ok_or(Refusal::Unsupported)?;
        sector(self.image, at).map(|_| Place::of(icb.location.block, at)).ok_or(Refusal::Io)
    }

    fn visit(&mut self, visit: &Visit) -> Result<(), Failure> {
        let place = visit.place;
        // This call is refused exactly where the entry or its chain is.
        let read = self.count(0, self.vault.part(visit.icb));
        let bytes = sector(self.image, place.sector).unwrap_or_default();
        if let Some(entry) = records::file_entry(bytes) {
            if self.entries.insert(place) {
                self.report.descriptor(|| path(&self.names, visit.name, None), entry.tag, place, bytes)?;
                self.chain(visit, &entry, bytes)?;
            }
            if visit.is_directory && read.is_ok() {
                return self.directory(visit, &entry);
            }
        }
        read.map_or_else(|why| self.unread(visit, why), |_| Ok(()))
    }

    /// Where the file that an ICB names can't be read, and why.
    fn refused(&self, icb: LongAd, why: Refusal) -> Diagnosis {
        self.vault.diagnose(Asked::ReadFile(icb), &Refused { why, sectors: 0 })
    }

    fn unread(&mut self, visit: &Visit, why: Refusal) -> Result<(), Failure> {
        self.report.unread(&path(&self.names, visit.name, None), &self.refused(visit.icb, why))
    }

    /// The headers of an entry's continuations, as far as they can be followed, or up to one that was come to already.
    fn chain(&mut self, visit: &Visit, entry: &FileEntry, bytes: &'a [u8]) -> Result<(), Failure> {
        let mut area = bytes.get(entry.area_at..).and_then(|rest| rest.get(..entry.area_length)).unwrap_or_default();
        for _ in 0..MOST_CONTINUATIONS {
            let Some(next) = continuation(entry.kind, area) else {
                break;
            };
            let Some((place, sectors)) = self.stands(visit.icb, &next) else {
                break;
            };
            let bytes = sectors.get(..next.length as usize).unwrap_or_default();
            let Some((tag, length)) = records::header(bytes).filter(|_| self.continuations.insert(place)) else {
                break;
            };
            self.report.descriptor(|| path(&self.names, visit.name, None), tag, place, sectors)?;
            area = bytes.get(HEADER..).and_then(|rest| rest.get(..length)).unwrap_or_default();
        }
        Ok(())
    }

    /// The place and the sectors of a continuation of the entry that an ICB names, where it is one that is read.
    fn stands(&self, icb: LongAd, next: &Descriptor) -> Option<(Place, &'a [u8])> {
        if next.length > LONGEST {
            return None;
        }
        let extent = AllocExtent { length: next.length, extent_type: next.extent_type, block: next.block, partition_ref: next.partition };
        let first = self.vault.extent_sector(icb, &extent)?;
        let sectors = run(self.image, first, u64::from(next.length).div_ceil(SECTOR_SIZE))?;
        Some((Place::of(next.block, first), sectors))
    }

    /// The identifiers of a directory, and what they name.
    fn directory(&mut self, visit: &Visit, entry: &FileEntry) -> Result<(), Failure> {
        let read = self.count(1, self.vault.read_file(visit.icb));
        let both = read.and_then(|bytes| Ok((bytes, self.count(2, self.vault.extents(visit.icb))?)));
        let (bytes, extents) = match both {
            Ok(both) => both,
            Err(why) => return self.unread(visit, why),
        };
        let embedded = (entry.kind == EMBEDDED).then_some(visit.place);
        let places: Vec<_> = extents.iter().map(|extent| (self.begins(visit.icb, extent), extent.length.into())).collect();
        let mut blocks = Blocks { embedded, extents: &places, before: 0 };
        let (first, mut at) = (self.pending.len(), 0);
        while let Some(rest) = bytes.get(at..).filter(|rest| rest.len() >= IDENTIFIER) {
            let Some(found) = records::file_identifier(rest) else {
                let what = format!("{}, from byte {at} on", path(&self.names, visit.name, None));
                let refused = Refused { why: Refusal::Malformed, sectors: 0 };
                self.report.unread(&what, &self.vault.diagnose(Asked::ReadDirectory(visit.icb), &refused))?;
                break;
            };
            self.identifier(visit, &found, rest, blocks.at(at as u64))?;
            at += found.total_size;
        }
        // The last one pushed is the next one looked at.
        self.pending[first..].reverse();
        Ok(())
    }

    /// Where an extent of the file that an ICB names begins. One that is in no partition has no byte that was read.
    fn begins(&self, icb: LongAd, extent: &AllocExtent) -> Place {
        self.vault.extent_sector(icb, extent).map_or(NOWHERE, |sector| Place::of(extent.block, sector))
    }

    /// An identifier, and what it names; `bytes` are the directory's from it on.
    fn identifier(&mut self, visit: &Visit, found: &FileIdentifier, bytes: &[u8], place: Place) -> Result<(), Failure> {
        let marks = found.file_characteristics;
        let recorded = bytes.get(found.name_at..).and_then(|rest| rest.get(..found.name_length)).unwrap_or_default();
        let name = if marks & PARENT != 0 { b"..".to_vec() } else { records::name(recorded) };
        let deleted = if marks & DELETED != 0 { " (deleted)" } else { "" };
        self.report.descriptor(|| path(&self.names, visit.name, Some(&name)) + deleted, found.tag, place, bytes)?;
        if marks & (DELETED | PARENT) != 0 {
            return Ok(());
        }
        self.meet(icb(found), marks & DIRECTORY != 0, visit.name, Some(name))
    }
}

/// The ICB of an identifier, in the form that the calls take.
fn icb(found: &FileIdentifier) -> LongAd {
    let icb = found.icb;
    let location = LbAddr { block: icb.location.block, partition_ref: icb.location.partition_ref };
    LongAd { length: icb.length, extent_type: icb.extent_type, location, implementation_use: icb.implementation_use }
}

/// The continuation that ends an area (docs/RULES.md, 6.9 to 6.12).
fn continuation(kind: u8, area: &[u8]) -> Option<Descriptor> {
    for bytes in area.chunks_exact(records::descriptor_size(kind)?) {
        let found = records::descriptor(kind, bytes).filter(|found| found.length != 0)?;
        if found.extent_type == CONTINUATION {
            return Some(found);
        }
    }
    None
}

/// The blocks that a directory's bytes stand in.
struct Blocks<'e> {
    /// The entry's, where the directory is embedded.
    embedded: Option<Place>,
    /// Where each begins, and its length, from the one on that was come to.
    extents: &'e [(Place, u64)],
    /// The bytes of those before.
    before: u64,
}

impl Blocks<'_> {
    /// The block that holds the byte at this place, which is never before the one asked for last. An extent may end inside a block.
    fn at(&mut self, at: u64) -> Place {
        if let Some(place) = self.embedded {
            return place;
        }
        while let [(begins, length), rest @ ..] = self.extents {
            if at - self.before < *length {
                return begins.behind((at - self.before) / SECTOR_SIZE);
            }
            self.before += length;
            self.extents = rest;
        }
        // A directory has no bytes behind its extents.
        NOWHERE
    }
}

/// A path as it is printed; the root is a slash.
fn path(names: &[Name], of: Option<usize>, last: Option<&[u8]>) -> String {
    let above = std::iter::successors(of, |at| names[*at].above).map(|at| names[at].name.as_slice());
    let mut parts: Vec<&[u8]> = last.into_iter().chain(above).take(DEEPEST + 1).collect();
    let front = if parts.len() > DEEPEST { ".../" } else { "/" };
    parts.truncate(DEEPEST);
    parts.reverse();
    front.to_string() + &parts.into_iter().map(shown).collect::<Vec<_>>().join("/")
}

#[cfg(test)]
mod tests {
    use super::*;

    /// An extent of a partition that starts in sector 288 or, from block 20 on, in 400.
    fn extent(length: u64, block: u32) -> (Place, u64) {
        (place(block), length)
    }

    fn place(block: u32) -> Place {
        Place::of(block, if block < 20 { 288 } else { 400 } + u64::from(block))
    }

    #[test]
    fn a_byte_is_in_the_block_of_its_extent() {
        let extents = [extent(100, 7), extent(0, 90), extent(5000, 20), extent(2048, 9)];
        let mut blocks = Blocks { embedded: None, extents: &extents, before: 0 };
        let asked = [(0, 7), (99, 7), (100, 20), (2147, 20), (2148, 21), (5099, 22), (5100, 9), (7147, 9)];
        for (at, block) in asked {
            assert_eq!(blocks.at(at), place(block), "{at}");
        }
        assert_eq!(blocks.at(7148), NOWHERE);
        assert_eq!(Blocks { embedded: Some(place(3)), extents: &[], before: 0 }.at(5000), place(3));
    }

    #[test]
    fn a_path_is_printed_from_the_root_on() {
        let name = |above, name: &str| Name { above, name: name.into() };
        let names = [name(None, "SHOW"), name(Some(0), "a\nb")];
        assert_eq!(path(&names, None, None), "/");
        assert_eq!(path(&names, Some(1), None), "/SHOW/a\\u{a}b");
        assert_eq!(path(&names, Some(0), Some(b"..")), "/SHOW/..");
        let deep: Vec<Name> = (0..100).map(|i| name((i as usize).checked_sub(1), "d")).collect();
        assert_eq!(path(&deep, Some(99), Some(b"x")), format!(".../{}x", "d/".repeat(63)));
        assert_eq!(path(&deep, Some(63), None), format!("/{}d", "d/".repeat(63)));
    }

    #[test]
    fn only_whole_sectors_are_there() {
        let image = [0; 4097];
        assert_eq!(sector(&image, 1).map(<[u8]>::len), Some(2048));
        assert!(sector(&image, 2).is_none() && sector(&image, u64::MAX).is_none());
        assert!(run(&image, 0, 2).is_some() && run(&image, 1, 2).is_none());
    }
}
