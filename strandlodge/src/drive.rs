//! The calls over a reader.

use crate::answer::{Answer, Refused};
use crate::counted_drive::{CountedDrive, Uncopied, Unopened};
use crate::diagnosis::Diagnosis;
use crate::disc::plain;
use crate::error::Result;
use crate::matching::Matching;
use crate::paths::{PathText, component};
use crate::records::{DirEntry, LongAd};
use crate::source::Missed;
use std::fmt;
use std::io::{Read, Seek, Write};

/// An opened disc over a reader: a file, a drive such as `/dev/sr0`, or anything else that implements `Read` and
/// `Seek`.
///
/// It has the original's shape. Each call asks the reader only for the sectors that it needs, each once and in order;
/// adjacent sectors are read together, up to 32. Nothing is kept from one call to the next. The bytes of a sector are
/// looked at in memory of its own, so whatever the reader gives, the answer is that of one disc.
///
/// If the reader can't give a sector, because a seek or a read failed or the sector is not completely there, the call
/// is refused with 1. [`Drive::missed`] then says which sector, and what the reader reported.
///
/// ```no_run
/// use strandlodge::Drive;
///
/// # fn main() -> std::result::Result<(), Box<dyn std::error::Error>> {
/// let mut drive = Drive::open(std::fs::File::open("/dev/sr0")?)?;
/// let look = drive.read_path("SHOW/10.1A")?;
/// println!("{}: {} bytes", drive.label()?, look.len());
/// # Ok(())
/// # }
/// ```
pub struct Drive<R> {
    inner: CountedDrive<R>,
    sectors: u64,
}

impl<R> fmt::Debug for Drive<R> {
    fn fmt(&self, f: &mut fmt::Formatter<'_>) -> fmt::Result {
        self.inner.fmt(f)
    }
}

impl<R> Drive<R> {
    /// The same calls, each with the number of sectors that it asked for.
    ///
    /// ```no_run
    /// # fn main() -> Result<(), Box<dyn std::error::Error>> {
    /// # let mut drive = strandlodge::Drive::open(std::fs::File::open("/dev/sr0")?)?;
    /// println!("{} sectors", drive.counted().read_path("SHOW/9")?.sectors);
    /// # Ok(())
    /// # }
    /// ```
    pub fn counted(&mut self) -> &mut CountedDrive<R> {
        &mut self.inner
    }

    /// The number of sectors that opening asked for.
    pub fn sectors(&self) -> u64 {
        self.sectors
    }

    /// The sector where the partition starts.
    pub fn partition_start_sector(&self) -> u64 {
        self.inner.partition_start_sector()
    }

    /// The partition's number.
    pub fn partition_number(&self) -> u16 {
        self.inner.partition_number()
    }

    /// The root directory.
    pub fn root_directory_icb(&self) -> LongAd {
        self.inner.root_directory_icb()
    }

    /// The volume's name. This asks for no sector: opening kept the label field.
    ///
    /// ```no_run
    /// # fn main() -> Result<(), Box<dyn std::error::Error>> {
    /// println!("{}", strandlodge::Drive::open(std::fs::File::open("/dev/sr0")?)?.label()?);
    /// # Ok(())
    /// # }
    /// ```
    ///
    /// # Errors
    ///
    /// Refusal 2 if the field is not a valid name.
    pub fn label(&self) -> Result<String> {
        plain(self.inner.label())
    }

    /// The sector that the reader could not read, if the last call was refused with 1.
    pub fn missed(&self) -> Option<&Missed> {
        self.inner.missed()
    }

    /// The reader.
    pub fn get_ref(&self) -> &R {
        self.inner.get_ref()
    }

    /// Returns the reader, at whatever position the last call left it.
    pub fn into_inner(self) -> R {
        self.inner.into_inner()
    }
}

impl<R: Read + Seek> Drive<R> {
    /// Where and why the last call was refused; `refused` is what it returned. Call it before any other call on the
    /// drive. It asks the reader again for the sectors that it looks at.
    ///
    /// ```no_run
    /// # fn main() -> Result<(), Box<dyn std::error::Error>> {
    /// # let mut drive = strandlodge::Drive::open(std::fs::File::open("/dev/sr0")?)?;
    /// if let Err(refused) = drive.read_path("SHOW/9") {
    ///     println!("{}", drive.diagnose(&refused));
    /// }
    /// # Ok(())
    /// # }
    /// ```
    pub fn diagnose(&mut self, refused: &Refused) -> Diagnosis {
        self.inner.diagnose(refused)
    }

    /// Opens the volume of a disc, as [`Disc::open`](crate::Disc::open) does.
    ///
    /// ```no_run
    /// # fn main() -> Result<(), Box<dyn std::error::Error>> {
    /// let drive = strandlodge::Drive::open(std::fs::File::open("/dev/sr0")?)?;
    /// # Ok(())
    /// # }
    /// ```
    ///
    /// # Errors
    ///
    /// An `Unopened`, which holds the reader. Refusal 1 if a sector can't be read, 2 if a descriptor is invalid, 3 if a
    /// descriptor is missing, 4 if the volume is not supported.
    pub fn open(reader: R) -> std::result::Result<Drive<R>, Unopened<R>> {
        let Answer { value: inner, sectors } = CountedDrive::open(reader)?;
        Ok(Drive { inner, sectors })
    }

    /// The ICB that a path names, as [`Disc::lookup`](crate::Disc::lookup) finds it.
    ///
    /// ```no_run
    /// # fn main() -> Result<(), Box<dyn std::error::Error>> {
    /// # let mut drive = strandlodge::Drive::open(std::fs::File::open("/dev/sr0")?)?;
    /// let icb: strandlodge::LongAd = drive.lookup("SHOW/9")?;
    /// # Ok(())
    /// # }
    /// ```
    ///
    /// # Errors
    ///
    /// Refusal 3 if a name on the path does not exist; and the refusals of a listing for each directory on the way.
    pub fn lookup(&mut self, path: impl AsRef<[u8]>) -> Result<LongAd> {
        plain(self.inner.lookup(path))
    }

    /// The same with a choice of matching.
    ///
    /// ```no_run
    /// # fn main() -> Result<(), Box<dyn std::error::Error>> {
    /// # let mut drive = strandlodge::Drive::open(std::fs::File::open("/dev/sr0")?)?;
    /// let icb = drive.lookup_as("SHOW/10.1a", strandlodge::Matching::AsWritten)?;
    /// # Ok(())
    /// # }
    /// ```
    ///
    /// # Errors
    ///
    /// Refusal 3 if a name on the path does not exist, 9 if it is ambiguous; and the refusals of a listing for each
    /// directory on the way.
    pub fn lookup_as(&mut self, path: impl AsRef<[u8]>, matching: Matching) -> Result<LongAd> {
        plain(self.inner.lookup_as(path, matching))
    }

    /// The component at which [`Drive::lookup`] finds nothing, as a part of the path: a `str` of a `str`, bytes of
    /// bytes. `None` if the path exists.
    ///
    /// ```no_run
    /// # fn main() -> Result<(), Box<dyn std::error::Error>> {
    /// # let mut drive = strandlodge::Drive::open(std::fs::File::open("/dev/sr0")?)?;
    /// assert_eq!(drive.failed("SHOW/12")?, Some("12"));
    /// # Ok(())
    /// # }
    /// ```
    ///
    /// # Errors
    ///
    /// The refusals of the lookup, except 3.
    pub fn failed<'p, P: PathText + ?Sized>(&mut self, path: &'p P) -> Result<Option<&'p P::Component>> {
        self.failed_as(path, Matching::CaseIgnored)
    }

    /// The same for [`Drive::lookup_as`]. An ambiguous component is not one at which nothing is found: the call is then
    /// refused as the lookup is.
    ///
    /// ```no_run
    /// # fn main() -> Result<(), Box<dyn std::error::Error>> {
    /// # let mut drive = strandlodge::Drive::open(std::fs::File::open("/dev/sr0")?)?;
    /// assert_eq!(drive.failed_as("show/9", strandlodge::Matching::AsWritten)?, Some("show"));
    /// # Ok(())
    /// # }
    /// ```
    ///
    /// # Errors
    ///
    /// The refusals of the lookup, except 3.
    pub fn failed_as<'p, P: PathText + ?Sized>(&mut self, path: &'p P, matching: Matching) -> Result<Option<&'p P::Component>> {
        let found = plain(self.inner.failed_as(path.bytes(), matching))?;
        Ok(found.and_then(|found| component(path, found)))
    }

    /// The entries of a directory in the order of the disc, without deleted entries and the parent.
    ///
    /// ```no_run
    /// # fn main() -> Result<(), Box<dyn std::error::Error>> {
    /// # let mut drive = strandlodge::Drive::open(std::fs::File::open("/dev/sr0")?)?;
    /// for entry in &drive.read_directory(drive.root_directory_icb())? {
    ///     println!("{}", entry.name);
    /// }
    /// # Ok(())
    /// # }
    /// ```
    ///
    /// # Errors
    ///
    /// Refusal 1 if a sector can't be read, 2 if a descriptor or a name is invalid, 4 if the directory is not
    /// supported; 5 or 6 if there is not enough memory.
    pub fn read_directory(&mut self, icb: impl Into<LongAd>) -> Result<Vec<DirEntry>> {
        plain(self.inner.read_directory(icb))
    }

    /// The bytes of a file, or of a directory itself.
    ///
    /// ```no_run
    /// # fn main() -> Result<(), Box<dyn std::error::Error>> {
    /// # let mut drive = strandlodge::Drive::open(std::fs::File::open("/dev/sr0")?)?;
    /// let icb = drive.lookup("SHOW/9")?;
    /// let look: Vec<u8> = drive.read_file(icb)?;
    /// # Ok(())
    /// # }
    /// ```
    ///
    /// # Errors
    ///
    /// Refusal 1 if a sector can't be read, 2 if a descriptor is invalid, 4 if the file is not supported; 5 if there is
    /// not enough memory for its bytes.
    pub fn read_file(&mut self, icb: impl Into<LongAd>) -> Result<Vec<u8>> {
        plain(self.inner.read_file(icb))
    }

    /// Looks a path up and reads what it names.
    ///
    /// ```no_run
    /// # fn main() -> Result<(), Box<dyn std::error::Error>> {
    /// # let mut drive = strandlodge::Drive::open(std::fs::File::open("/dev/sr0")?)?;
    /// let look: Vec<u8> = drive.read_path("SHOW/9")?;
    /// # Ok(())
    /// # }
    /// ```
    ///
    /// # Errors
    ///
    /// The refusals of the lookup, then those of the read.
    pub fn read_path(&mut self, path: impl AsRef<[u8]>) -> Result<Vec<u8>> {
        plain(self.inner.read_path(path))
    }

    /// The same with a choice of matching.
    ///
    /// ```no_run
    /// # fn main() -> Result<(), Box<dyn std::error::Error>> {
    /// # let mut drive = strandlodge::Drive::open(std::fs::File::open("/dev/sr0")?)?;
    /// let look = drive.read_path_as("SHOW/10.1a", strandlodge::Matching::AsWritten)?;
    /// # Ok(())
    /// # }
    /// ```
    ///
    /// # Errors
    ///
    /// The refusals of the lookup, then those of the read.
    pub fn read_path_as(&mut self, path: impl AsRef<[u8]>, matching: Matching) -> Result<Vec<u8>> {
        plain(self.inner.read_path_as(path, matching))
    }

    /// Writes a file's bytes to a writer as they arrive, and returns their number. Use it for a file that doesn't fit
    /// in memory.
    ///
    /// Bytes that arrived before a refusal are written. Only the file's descriptors bound the length: a malicious disc
    /// may give more bytes than it has. To stop, let the writer fail.
    ///
    /// ```no_run
    /// # fn main() -> Result<(), Box<dyn std::error::Error>> {
    /// # let mut drive = strandlodge::Drive::open(std::fs::File::open("/dev/sr0")?)?;
    /// let film = drive.lookup("SHOW/FILM")?;
    /// let bytes: u64 = drive.copy_file(film, &mut std::fs::File::create("film")?)?;
    /// # Ok(())
    /// # }
    /// ```
    ///
    /// # Errors
    ///
    /// An `Uncopied`: the read was refused, with the number of bytes written so far, or the writer failed.
    pub fn copy_file(&mut self, icb: impl Into<LongAd>, to: &mut impl Write) -> std::result::Result<u64, Uncopied> {
        self.inner.copy_file(icb, to).map(|answer| answer.value)
    }
}
