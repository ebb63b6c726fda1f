//! The arguments and results of calls, with the original's names.

use crate::answer::Answer;
use strandlodge_sys::vault as face;

/// A block of a partition.
#[derive(Debug, Clone, Copy, PartialEq, Eq, Hash)]
pub struct LbAddr {
    /// The block, counted from the partition's start.
    pub block: u32,
    /// The partition.
    pub partition_ref: u16,
}

/// The place of something on the disc, such as the ICB of a file or a directory.
#[derive(Debug, Clone, Copy, PartialEq, Eq, Hash)]
pub struct LongAd {
    /// In bytes; below 2^30 if it was read from a disc.
    pub length: u32,
    /// 0 to 3 if it was read from a disc; 0 is recorded.
    pub extent_type: u8,
    /// The first block.
    pub location: LbAddr,
    /// As recorded.
    pub implementation_use: [u8; 6],
}

impl LongAd {
    /// From its recorded form.
    pub(crate) fn recorded(b: &[u8; 16]) -> LongAd {
        LongAd::of_c(strandlodge_sys::icbs::long_ad(b))
    }

    /// From the form in which it crosses the interface.
    pub(crate) fn of_c(l: face::LongAd) -> LongAd {
        let face::LongAd { length, extent_type, location, implementation_use } = l;
        let location = LbAddr { block: location.block, partition_ref: location.partition_ref };
        LongAd { length, extent_type, location, implementation_use }
    }

    /// The form in which it crosses the interface.
    pub(crate) fn to_c(self) -> face::LongAd {
        let LongAd { length, extent_type, location, implementation_use } = self;
        let location = face::LbAddr { block: location.block, partition_ref: location.partition_ref };
        face::LongAd { length, extent_type, location, implementation_use }
    }
}

/// Lets you pass the result of `lookup` to `read_file`.
impl From<Answer<LongAd>> for LongAd {
    fn from(answer: Answer<LongAd>) -> LongAd {
        answer.value
    }
}

/// An extent of a file, in the order of the file.
#[derive(Debug, Clone, Copy, PartialEq, Eq, Hash)]
pub struct AllocExtent {
    /// The number of bytes of the file in it.
    pub length: u32,
    /// 0: recorded. 1: allocated but not recorded. 2: neither.
    pub extent_type: u8,
    /// The first block, counted from the partition's start.
    pub block: u32,
    /// The partition, if the descriptor names one.
    pub partition_ref: Option<u16>,
}

/// An entry of a directory.
#[derive(Debug, Clone, PartialEq, Eq, Hash)]
pub struct DirEntry {
    /// The name as recorded.
    pub name: String,
    /// The ICB of the file or directory.
    pub icb: LongAd,
    /// Whether it is a directory.
    pub is_directory: bool,
}

/// An entry of a show: there is one for each path that leads to it.
#[derive(Debug, Clone, PartialEq, Eq, Hash)]
pub struct ShowEntry {
    /// The number of names in its path: 1 for the entries of the root.
    pub level: u8,
    /// The names from the root down to its own, joined by slashes. A name that itself contains a slash, or is empty, is
    /// included as it is; such a path does not lead back here.
    pub path: String,
    /// The entry in its directory.
    pub entry: DirEntry,
}

/// The size of a record's mark, and of everything before its name.
const MARK: usize = 2;
const HEAD: usize = MARK + 1 + 16 + 2;

/// The entries of a listing (records as in `vault_list` of include/vault.h); `None` if there is not enough memory.
pub(crate) fn entries(listing: &[u8]) -> Option<Vec<DirEntry>> {
    let (mut entries, mut rest) = (Vec::new(), listing);
    entries.try_reserve_exact(count(listing)).ok()?;
    while let Some((record, behind)) = record(rest) {
        entries.push(record?);
        rest = behind;
    }
    Some(entries)
}

/// The number of records of a listing.
fn count(listing: &[u8]) -> usize {
    std::iter::successors(Some(listing), |rest| behind(rest)).count() - 1
}

/// What follows the first record; `None` if there is no record.
fn behind(listing: &[u8]) -> Option<&[u8]> {
    let (head, rest) = listing.split_first_chunk::<HEAD>()?;
    rest.get(u16::from_le_bytes([head[HEAD - 2], head[HEAD - 1]]).into()..)
}

/// The record at the front, without the entry if there is no memory for its name, and what follows it.
fn record(listing: &[u8]) -> Option<(Option<DirEntry>, &[u8])> {
    marked(listing.split_at_checked(MARK)?.1)
}

/// The record at the front of a show (`vault_show`): its level, its entry, and what follows it.
pub(crate) fn leveled(show: &[u8]) -> Option<(u8, Option<DirEntry>, &[u8])> {
    let (level, rest) = show.split_at_checked(MARK)?.1.split_first()?;
    let (entry, behind) = marked(rest)?;
    Some((*level, entry, behind))
}

/// The rest of a record after its mark and, in a show, its level.
fn marked(rest: &[u8]) -> Option<(Option<DirEntry>, &[u8])> {
    let (&[directory], rest) = rest.split_first_chunk()?;
    let (icb, rest) = rest.split_first_chunk()?;
    let (length, rest) = rest.split_first_chunk()?;
    let (name, rest) = rest.split_at_checked(u16::from_le_bytes(*length).into())?;
    let entry = text(name).map(|name| DirEntry { name, icb: LongAd::recorded(icb), is_directory: directory == 1 });
    Some((entry, rest))
}

/// A name as text; none if there isn't memory for it. Names are written as UTF-8, by the contract of the calls, of an image that stands still.
pub(crate) fn text(name: &[u8]) -> Option<String> {
    let mut text = String::new();
    text.try_reserve_exact(name.len()).ok()?;
    match std::str::from_utf8(name) {
        Ok(name) => text.push_str(name),
        Err(_) => text.push_str(&String::from_utf8_lossy(name)),
    }
    Some(text)
}
