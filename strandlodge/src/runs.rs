//! A file as runs of the image: its bytes in place, without a copy.

use crate::answer::Answered;
use crate::calls;
use crate::counted::{Counted, FIRST_SLOTS, MOST_SLOTS};
use crate::diagnosis::Asked;
use crate::disc::Disc;
use crate::error::Result;
use crate::records::LongAd;
use crate::room::{Room, retry};
use std::fmt;
use std::iter::FusedIterator;
use strandlodge_sys::vault as face;

/// The place of a run of a file's bytes in the image.
#[derive(Debug, Clone, Copy, PartialEq, Eq, Hash)]
pub struct Run {
    /// The offset of its first byte in the image.
    pub at: u64,
    /// The number of bytes, at least 1.
    pub length: u64,
}

/// A file's bytes as parts of the image, in reading order, from [`Disc::runs`]. It is proved that joined they are what
/// `read_file` gives.
///
/// It iterates over the parts, each of at least one byte. Two parts may follow each other in the image, overlap or be
/// equal. Its methods cover only the runs that are still to come. Besides the borrow of the image it holds 16 bytes for
/// each run.
#[derive(Clone)]
pub struct Runs<'a> {
    image: &'a [u8],
    row: Vec<face::Run>,
    /// The first run that is still to come.
    next: usize,
    /// The bytes of the runs that are still to come.
    bytes: u64,
}

impl<'a> Runs<'a> {
    fn of(image: &'a [u8], row: Vec<face::Run>) -> Runs<'a> {
        let bytes = row.iter().fold(0, |bytes: u64, run| bytes.saturating_add(run.length));
        Runs { image, row, next: 0, bytes }
    }

    /// The total number of bytes; before the first part is taken, the file's length as a read gives it.
    pub fn len(&self) -> u64 {
        self.bytes
    }

    /// Whether there are no bytes, as in an empty file.
    pub fn is_empty(&self) -> bool {
        self.bytes == 0
    }

    /// The place of each run. This does not look at the image.
    ///
    /// ```
    /// # fn main() -> Result<(), Box<dyn std::error::Error>> {
    /// let image = strandlodge::write(&[("9", b"cue 9")])?;
    /// let disc = strandlodge::Disc::open(&image)?;
    /// for run in disc.runs(disc.lookup("9")?)?.places() {
    ///     println!("{} bytes from byte {} of the image on", run.length, run.at);
    /// }
    /// # Ok(())
    /// # }
    /// ```
    pub fn places(&self) -> impl Iterator<Item = Run> {
        self.rest().iter().map(|run| Run { at: run.at, length: run.length })
    }

    /// The runs of at most `bytes` bytes, from byte `from` on. Past the end there are fewer, or none. The first and the
    /// last run are cut to fit.
    ///
    /// ```
    /// # fn main() -> Result<(), Box<dyn std::error::Error>> {
    /// let image = strandlodge::write(&[("9", b"cue 9, blackout")])?;
    /// let disc = strandlodge::Disc::open(&image)?;
    /// let part: Vec<&[u8]> = disc.runs(disc.lookup("9")?)?.range(7, 5).collect();
    /// assert_eq!(part.concat(), b"black");
    /// # Ok(())
    /// # }
    /// ```
    pub fn range(mut self, from: u64, bytes: u64) -> Runs<'a> {
        self.drop_front(from);
        self.keep_front(bytes);
        self
    }

    fn rest(&self) -> &[face::Run] {
        self.row.get(self.next..).unwrap_or_default()
    }

    fn drop_front(&mut self, bytes: u64) {
        let mut left = bytes;
        while let Some(run) = self.row.get_mut(self.next) {
            if left < run.length {
                run.at = run.at.saturating_add(left);
                run.length -= left;
                break;
            }
            left -= run.length;
            self.next += 1;
        }
        self.bytes = self.bytes.saturating_sub(bytes);
    }

    fn keep_front(&mut self, bytes: u64) {
        let (mut left, mut kept) = (bytes, self.next);
        while let Some(run) = self.row.get_mut(kept).filter(|_| left > 0) {
            run.length = run.length.min(left);
            left -= run.length;
            kept += 1;
        }
        self.row.truncate(kept);
        self.bytes = self.bytes.min(bytes);
    }
}

impl<'a> Iterator for Runs<'a> {
    type Item = &'a [u8];

    fn next(&mut self) -> Option<&'a [u8]> {
        let run = self.row.get(self.next)?;
        self.next += 1;
        self.bytes = self.bytes.saturating_sub(run.length);
        Some(part(self.image, run))
    }

    fn size_hint(&self) -> (usize, Option<usize>) {
        let runs = self.rest().len();
        (runs, Some(runs))
    }
}

impl FusedIterator for Runs<'_> {}

impl fmt::Debug for Runs<'_> {
    /// Leaves out the bytes, which may be many gigabytes.
    fn fmt(&self, f: &mut fmt::Formatter<'_>) -> fmt::Result {
        f.debug_struct("Runs").field("runs", &self.rest().len()).field("bytes", &self.bytes).finish_non_exhaustive()
    }
}

/// A run's bytes. They are inside an image that doesn't change; if it did change, a run outside it is empty.
fn part<'a>(image: &'a [u8], run: &face::Run) -> &'a [u8] {
    let (at, length) = (usize::try_from(run.at).unwrap_or(usize::MAX), usize::try_from(run.length).unwrap_or(usize::MAX));
    image.get(at..).and_then(|rest| rest.get(..length)).unwrap_or_default()
}

impl<'a> Counted<'a> {
    /// The bytes of a file, or of a directory itself, as parts of the image: see [`Disc::runs`]. The refusals and the
    /// count are those of [`Counted::read_file`].
    ///
    /// ```no_run
    /// # fn main() -> std::result::Result<(), Box<dyn std::error::Error>> {
    /// let image = std::fs::read("show.img")?;
    /// let disc = strandlodge::Counted::open(&image)?;
    /// let runs = disc.runs(disc.lookup("SHOW/FILM")?)?;
    /// println!("{} bytes, which take {} sectors", runs.len(), runs.sectors);
    /// # Ok(())
    /// # }
    /// ```
    ///
    /// # Errors
    ///
    /// The refusals of the read, except those for lack of memory; 7 if there is no memory for the runs.
    pub fn runs(&self, icb: impl Into<LongAd>) -> Answered<Runs<'a>> {
        let (icb, volume, image) = (icb.into(), self.volume(), self.image());
        // An extent gives one run at most, and an embedded file is one.
        let mut row = Room::new(FIRST_SLOTS, MOST_SLOTS);
        let answer = retry(&mut row, &mut Room::none(), |row, _| calls::runs(volume, image, icb, row))?;
        row.lent.shrink_to_fit();
        Ok(answer.map(|()| Runs::of(image, row.lent)))
    }
}

impl<B: AsRef<[u8]>> Disc<B> {
    /// The bytes of a file, or of a directory itself, as parts of the image in reading order: what [`Disc::read_file`]
    /// gives, without a copy. Refusals come before the first part. They are those of the read, except for lack of
    /// memory: a run takes 16 bytes, however long it is. So this also works for a file that doesn't fit in memory, or
    /// that is longer than its image because its extents overlap. Refusal 7 is given if there is no memory for the runs
    /// themselves; the rules allow 4,194,560 of them.
    ///
    /// ```
    /// # fn main() -> Result<(), Box<dyn std::error::Error>> {
    /// # use std::io::Write;
    /// # let image = strandlodge::write(&[("FILM", b"a long one")])?;
    /// # let disc = strandlodge::Disc::open(&image)?;
    /// # let mut file = Vec::new();
    /// let runs = disc.runs(disc.lookup("FILM")?)?;
    /// println!("{} bytes", runs.len());
    /// for part in runs {
    ///     file.write_all(part)?; // straight from the image
    /// }
    /// # assert_eq!(file, b"a long one");
    /// # Ok(())
    /// # }
    /// ```
    ///
    /// # Errors
    ///
    /// The refusals of the read, except those for lack of memory; 7 if there is no memory for the runs.
    pub fn runs(&self, icb: impl Into<LongAd>) -> Result<Runs<'_>> {
        let icb = icb.into();
        self.told(Asked::ReadFile(icb), self.counted().runs(icb))
    }
}
