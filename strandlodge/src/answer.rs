//! The result of a call: an answer or a refusal, each with its sector count.

use std::fmt;
use std::ops::{Deref, DerefMut};
use strandlodge_sys::vault;

/// The result of a call on one record, without an image.
pub type Result<T> = std::result::Result<T, Refused>;

/// The result of a call of [`Counted`](crate::Counted) or [`CountedDrive`](crate::CountedDrive), which count sectors.
pub type Answered<T> = std::result::Result<Answer<T>, Refused>;

/// An answer, and how many sectors of 2,048 bytes were asked for to give it.
#[derive(Debug, Clone, Copy, PartialEq, Eq)]
pub struct Answer<T> {
    /// The value itself. You can call its methods on the `Answer`.
    pub value: T,
    /// The number of sectors that the call asked for.
    pub sectors: u64,
}

impl<T> Answer<T> {
    /// Maps the value and keeps the count.
    pub fn map<U>(self, make: impl FnOnce(T) -> U) -> Answer<U> {
        Answer { value: make(self.value), sectors: self.sectors }
    }
}

impl<T> Deref for Answer<T> {
    type Target = T;

    fn deref(&self) -> &T {
        &self.value
    }
}

impl<T> DerefMut for Answer<T> {
    fn deref_mut(&mut self) -> &mut T {
        &mut self.value
    }
}

/// Lets you pass an answer where bytes are expected, as in `std::fs::write`.
impl<T: AsRef<U>, U: ?Sized> AsRef<U> for Answer<T> {
    fn as_ref(&self) -> &U {
        self.value.as_ref()
    }
}

impl<T: fmt::Display> fmt::Display for Answer<T> {
    fn fmt(&self, f: &mut fmt::Formatter<'_>) -> fmt::Result {
        self.value.fmt(f)
    }
}

impl<T: IntoIterator> IntoIterator for Answer<T> {
    type Item = T::Item;
    type IntoIter = T::IntoIter;

    fn into_iter(self) -> T::IntoIter {
        self.value.into_iter()
    }
}

impl<'a, T> IntoIterator for &'a Answer<T>
where
    &'a T: IntoIterator,
{
    type Item = <&'a T as IntoIterator>::Item;
    type IntoIter = <&'a T as IntoIterator>::IntoIter;

    fn into_iter(self) -> Self::IntoIter {
        self.value.into_iter()
    }
}

/// Why a call was refused: the numbers of the answer table (include/vault.h). The first four are the original's kinds
/// of error.
#[derive(Debug, Clone, Copy, PartialEq, Eq, Hash)]
#[non_exhaustive]
pub enum Refusal {
    /// 1: a sector is not completely inside the image, or the reader could not read it.
    Io,
    /// 2: a descriptor, a name or a length is invalid.
    Malformed,
    /// 3: no volume, or no such path.
    NotBluray,
    /// 4: not supported: another block size or partition, partition maps other than up to four of type 1, a compressed
    /// or unrecorded extent, a continuation of more than 1,048,576 bytes.
    Unsupported,
    /// 5: there is not enough memory for the result.
    NoRoom,
    /// 6: there is not enough memory for a directory; in a show, together with the directories above it.
    NoWork,
    /// 7: there is not enough memory for the extents or runs.
    NoSlot,
    /// 9: two or more entries of a directory match a component of the path. Only under
    /// [`Matching::Unambiguous`](crate::Matching).
    Ambiguous,
    /// 10: a descriptor has a wrong CRC, or a CRC length that exceeds the available bytes. Only with
    /// [`How::checked`](crate::How).
    BadCrc,
    /// 11: a directory is at the last level that was asked for, or the number of levels is 0 or more than 16. Only from
    /// [`Disc::show`](crate::Disc::show).
    TooDeep,
    /// 12: there is not enough memory for the results of a list of paths. Only from
    /// [`Disc::read_all`](crate::Disc::read_all), for the whole list; no single path has it.
    TooMany,
    /// 13: a name of an image to be written is not 1 to 127 bytes from 21 to 7E without the slash, or two names are
    /// equal with ASCII case ignored. Only from [`write`](crate::write) and the like; so is 14.
    BadName,
    /// 14: an image to be written has more than 64 files, a file of more than 1,073,739,776 bytes, different numbers of
    /// names and lengths, or lengths that exceed the staging area.
    BadFiles,
    /// 15: the lengths of a shelf's images exceed its bytes, or there is no memory for their figures. Only from
    /// [`survey`](crate::survey()) and the like, for the shelf; no image counts under it.
    BadShelf,
    /// 16: the call would ask for more sectors than its budget allows. Only from [`Disc::show`](crate::Disc::show), and
    /// from [`survey`](crate::survey()) and the like for an image; no file counts under it.
    OverBudget,
    /// A number that is not in this crate's table.
    Unknown(u64),
}

/// The refusals and their numbers.
const TABLE: [(Refusal, u64); 15] = [
    (Refusal::Io, vault::IO),
    (Refusal::Malformed, vault::MALFORMED),
    (Refusal::NotBluray, vault::NOT_BLURAY),
    (Refusal::Unsupported, vault::UNSUPPORTED),
    (Refusal::NoRoom, vault::NO_ROOM),
    (Refusal::NoWork, vault::NO_WORK),
    (Refusal::NoSlot, vault::NO_SLOT),
    (Refusal::Ambiguous, vault::AMBIGUOUS),
    (Refusal::BadCrc, vault::BAD_CRC),
    (Refusal::TooDeep, vault::TOO_DEEP),
    (Refusal::TooMany, vault::TOO_MANY),
    (Refusal::BadName, vault::BAD_NAME),
    (Refusal::BadFiles, vault::BAD_FILES),
    (Refusal::BadShelf, vault::BAD_SHELF),
    (Refusal::OverBudget, vault::OVER_BUDGET),
];

impl Refusal {
    /// The number in the answer table: 1 to 7 or 9 to 16.
    pub fn number(self) -> u64 {
        match self {
            Refusal::Unknown(number) => number,
            known => TABLE.iter().find(|(why, _)| *why == known).map_or(0, |(_, number)| *number),
        }
    }

    /// Whether the call may give another result once more of the image is there. Only refusal 1, a missing sector, may.
    ///
    /// Every other refusal is final, and so is every answer: whatever bytes are added at the end of the image, the same
    /// call gives the same result with the same count (docs/PROMISES.md). Refusals 5, 6, 7 and 12 are final for the
    /// memory that was lent, and 16 for the sectors: a file longer than its image, and longer than 256 MiB, may get
    /// enough room in a longer image.
    ///
    /// This holds for bytes that are added after the last one. An image that is first created at its full length and
    /// filled later has zeros where nothing was copied yet, and they are read as they are.
    pub fn may_pass(self) -> bool {
        self == Refusal::Io
    }

    /// The refusal that an answer number names; 0 is none.
    pub(crate) fn of(answer: u64) -> Option<Refusal> {
        if answer == vault::DONE {
            return None;
        }
        Some(TABLE.iter().find(|(_, number)| *number == answer).map_or(Refusal::Unknown(answer), |(why, _)| *why))
    }
}

/// The meaning, as a sentence without its full stop.
impl fmt::Display for Refusal {
    fn fmt(&self, f: &mut fmt::Formatter<'_>) -> fmt::Result {
        f.write_str(match self {
            Refusal::Io => "a sector is missing: the image is cut short, or is not a disc image",
            Refusal::Malformed => "a descriptor, name or length is invalid: the disc is damaged, or is not UDF",
            Refusal::NotBluray => "no volume, or no such path",
            Refusal::Unsupported => "not supported: the block size, a partition, the partition maps, or a compressed or unrecorded extent",
            Refusal::NoRoom => "not enough memory for the result",
            Refusal::NoWork => "not enough memory for a directory (in a show: together with those above it)",
            Refusal::NoSlot => "not enough memory for the file's extents or runs",
            Refusal::Ambiguous => "two or more entries match one name of the path",
            Refusal::BadCrc => "a descriptor fails its CRC check: the disc is scratched, or was written that way",
            Refusal::TooDeep => "a directory is at the last level, or the number of levels is not 1 to 16",
            Refusal::TooMany => "not enough memory for the results of all paths",
            Refusal::BadName => {
                "a name on an image must have 1 to 127 bytes from 21 to 7E without the slash, and no two may be equal ignoring ASCII case"
            }
            Refusal::BadFiles => {
                "an image holds up to 64 files of up to 1,073,739,776 bytes each, and the staging area must hold all their bytes"
            }
            Refusal::BadShelf => "the images are longer than the shelf, or there is not enough memory for their figures",
            Refusal::OverBudget => "more sectors would be needed than the budget allows",
            Refusal::Unknown(number) => return write!(f, "the archive gave the unknown answer {number}"),
        })
    }
}

impl std::error::Error for Refusal {}

/// A refused call.
#[derive(Debug, Clone, Copy, PartialEq, Eq)]
pub struct Refused {
    /// The reason.
    pub why: Refusal,
    /// The number of sectors that were asked for, including one that could not be read.
    pub sectors: u64,
}

impl Refused {
    /// The number in the answer table: 1 to 7 or 9 to 16.
    pub fn number(&self) -> u64 {
        self.why.number()
    }

    /// Whether the call may give another result once more of the image is there: see [`Refusal::may_pass`].
    /// [`Disc::missing_sector`](crate::Disc) says which sector it waits for.
    pub fn may_pass(&self) -> bool {
        self.why.may_pass()
    }
}

impl fmt::Display for Refused {
    fn fmt(&self, f: &mut fmt::Formatter<'_>) -> fmt::Result {
        self.why.fmt(f)
    }
}

impl std::error::Error for Refused {
    fn source(&self) -> Option<&(dyn std::error::Error + 'static)> {
        Some(&self.why)
    }
}

impl From<Refused> for Refusal {
    fn from(refused: Refused) -> Refusal {
        refused.why
    }
}

#[cfg(test)]
mod tests {
    use super::*;

    #[test]
    fn every_number_is_a_refusal_of_its_own() {
        assert_eq!(Refusal::of(0), None);
        for (why, number) in TABLE {
            assert_eq!((Refusal::of(number), why.number()), (Some(why), number));
        }
        assert_eq!(TABLE.map(|(_, number)| number), [1, 2, 3, 4, 5, 6, 7, 9, 10, 11, 12, 13, 14, 15, 16]);
    }

    #[test]
    fn a_sector_that_is_missing_may_come() {
        let passing: Vec<u64> = TABLE.iter().filter(|(why, _)| why.may_pass()).map(|(_, number)| *number).collect();
        assert_eq!(passing, [1]);
        assert!(!Refusal::Unknown(1).may_pass());
    }

    #[test]
    fn a_number_that_the_table_lacks_shows_itself() {
        for number in [8, 17, 255, 256 + 7, u64::MAX] {
            let why = Refusal::of(number).unwrap();
            assert_eq!((why, why.number()), (Refusal::Unknown(number), number));
            assert!(why.to_string().contains(&number.to_string()), "{why}");
        }
    }
}
