//! Files of a volume with partition maps: a small reader over the original's records, written from the rules. The original itself has no maps; but
//! of a file that stands in one partition it can be asked, with that partition's start and the reference for its number, and there the two must
//! agree.

use super::calls::{Icb, Volume};
use super::original::{ABSURD, Came, Logged, is_denied, long, number};
use crate::error::BlurayError;
use crate::udf::{AdType, AllocationExtentDescriptor, DirEntry, FileEntry, FileIdentifierDescriptor, within};
use std::cell::Cell;
use std::collections::HashSet;

thread_local! {
    /// Files that were asked for: of one partition, and held to the original; and with something in another than their entry.
    pub static HELD: Cell<u64> = const { Cell::new(0) };
    pub static ACROSS: Cell<u64> = const { Cell::new(0) };
}

/// A chain has at most so many continuations, and each so many bytes (docs/RULES.md, 6.16).
const LONGEST_CHAIN: usize = 32;
const LONGEST: u32 = 1 << 20;
const HEADER: u32 = 24;

pub struct Mapped<'a> {
    image: &'a [u8],
    volume: Volume,
}

/// What is asked for along the way.
struct Way<'a> {
    image: &'a [u8],
    volume: Volume,
    asked: Vec<u64>,
    /// The references that were resolved, or could not be.
    named: HashSet<u16>,
}

fn parsed<T>(read: Result<T, BlurayError>) -> Result<T, u64> {
    read.map_err(|e| number(&e))
}

impl<'a> Way<'a> {
    /// The start of the partition that a reference leads to.
    fn start(&mut self, reference: u16) -> Result<u64, u64> {
        self.named.insert(reference);
        let known = self.volume.starts.iter().take(self.volume.maps as usize);
        known.skip(reference.into()).map(|start| u64::from(*start)).next().ok_or(4)
    }

    fn sector(&mut self, sector: u64) -> Result<&'a [u8], u64> {
        self.asked.push(sector);
        let at = sector as usize * 2048;
        self.image.get(at..at + 2048).filter(|_| !is_denied(sector)).ok_or(1)
    }

    /// The start by a reference that may be none: then it is that of the file's own partition.
    fn own(&mut self, reference: Option<u16>, icb: Icb) -> Result<u64, u64> {
        self.start(reference.unwrap_or(icb.partition))
    }

    /// An entry with its chain.
    fn entry(&mut self, icb: Icb) -> Result<FileEntry, u64> {
        if icb.length == 0 {
            return Err(2);
        }
        let at = self.start(icb.partition)? + u64::from(icb.block);
        let mut entry = parsed(FileEntry::parse(self.sector(at)?))?;
        for n in 0.. {
            let Some(next) = entry.continuation.take() else {
                break;
            };
            if n == LONGEST_CHAIN {
                return Err(2);
            }
            let first = self.own(next.partition_ref, icb)? + u64::from(next.block);
            if next.length < HEADER {
                return Err(2);
            }
            if next.length > LONGEST {
                return Err(4);
            }
            let mut bytes = Vec::new();
            for i in 0..u64::from(next.length).div_ceil(2048) {
                bytes.extend_from_slice(self.sector(first + i)?);
            }
            let header = parsed(AllocationExtentDescriptor::parse(&bytes))?;
            let end = u64::from(HEADER) + u64::from(header.length_of_allocation_descriptors);
            if end > next.length.into() {
                return Err(2);
            }
            parsed(within::area(&mut entry, &bytes[HEADER as usize..end as usize]))?;
        }
        Ok(entry)
    }

    fn read(&mut self, icb: Icb) -> Result<Vec<u8>, u64> {
        let entry = self.entry(icb)?;
        let want = entry.information_length;
        if entry.ad_type == AdType::EmbeddedInIcb {
            let mut bytes = entry.embedded_data;
            bytes.truncate(usize::try_from(want).unwrap_or(usize::MAX));
            return Ok(bytes);
        }
        let mut out: Vec<u8> = Vec::new();
        for extent in entry.extents() {
            if extent.extent_type != 0 {
                return Err(4);
            }
            let first = self.own(extent.partition_ref, icb)? + u64::from(extent.block);
            let mut left = extent.length as usize;
            let mut at = first;
            while left > 0 {
                let n = left.min(2048);
                out.extend_from_slice(&self.sector(at)?[..n]);
                (left, at) = (left - n, at + 1);
                if out.len() as u64 >= want {
                    break;
                }
            }
            if out.len() as u64 >= want {
                break;
            }
        }
        out.truncate(want as usize);
        assert!((out.len() as u64) < ABSURD, "an image holds too much to be compared");
        Ok(out)
    }

    /// Whether all of the file stands in the partition of its entry, so that the original can be asked for it.
    fn is_at_home(&self, icb: Icb) -> bool {
        let maps = self.volume.starts.len().min(self.volume.maps as usize);
        let at_home = usize::from(icb.partition) < maps && self.named.iter().all(|reference| *reference == icb.partition);
        let of = if at_home { &HELD } else { &ACROSS };
        of.set(of.get() + 1);
        at_home
    }

    fn came<T>(self, value: Result<T, u64>) -> Came<T> {
        Came { value, asked: self.asked }
    }
}

impl<'a> Mapped<'a> {
    pub fn new(image: &'a [u8], volume: Volume) -> Self {
        Mapped { image, volume }
    }

    fn way(&self) -> Way<'a> {
        Way { image: self.image, volume: self.volume, asked: Vec::new(), named: HashSet::new() }
    }

    /// The original, on the partition of an ICB: what it gives, and what it asks for.
    fn own<T>(
        &self,
        icb: Icb,
        ask: impl FnOnce(&mut crate::udf::UdfDisc<Logged<'a>>) -> Result<T, BlurayError>,
    ) -> (Result<T, u64>, Vec<u64>) {
        let start = self.volume.starts[usize::from(icb.partition)];
        let mut disc = within::disc(Logged::new(self.image), start, icb.partition, long(icb));
        let value = parsed(ask(&mut disc));
        (value, std::mem::take(&mut within::reader(&mut disc).asked))
    }

    pub fn entry(&self, icb: Icb) -> Came<FileEntry> {
        let mut way = self.way();
        let value = way.entry(icb);
        if way.is_at_home(icb) {
            let (own, asked) = self.own(icb, |disc| within::entry(disc, long(icb)));
            let told = |e: &Result<FileEntry, u64>| format!("{e:?}");
            assert!(
                told(&value) == told(&own) && way.asked == asked,
                "the entry through maps is not the original's own: {value:?} and {own:?}"
            );
        }
        way.came(value)
    }

    pub fn read(&self, icb: Icb) -> Came<Vec<u8>> {
        let mut way = self.way();
        let value = way.read(icb);
        let is_tame = |e: FileEntry| e.information_length <= ABSURD || e.ad_type == AdType::EmbeddedInIcb;
        if way.is_at_home(icb) && self.way().entry(icb).map_or(true, is_tame) {
            let own = self.own(icb, |disc| disc.read_file(long(icb)));
            assert!((&value, &way.asked) == (&own.0, &own.1), "the file through maps is not the original's own: {value:?} and {:?}", own.0);
        }
        way.came(value)
    }

    /// A directory's entries, from the bytes that it has.
    pub fn list(&self, icb: Icb) -> Came<Vec<DirEntry>> {
        let mut way = self.way();
        let value = way.read(icb).and_then(|bytes| listed(&bytes));
        way.came(value)
    }
}

fn listed(bytes: &[u8]) -> Result<Vec<DirEntry>, u64> {
    let (mut rest, mut all) = (bytes, Vec::new());
    while rest.len() >= 38 {
        let found = parsed(FileIdentifierDescriptor::parse(rest))?;
        // The last may lack its padding.
        rest = rest.get(found.total_size..).unwrap_or_default();
        if !found.is_deleted() && !found.is_parent() {
            all.push(DirEntry { is_directory: found.is_directory(), icb: found.icb, name: found.identifier });
        }
    }
    Ok(all)
}
