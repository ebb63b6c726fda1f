//! The calls over an image that is owned or borrowed.

use crate::answer::{Answer, Answered, Refused};
use crate::calls;
use crate::counted::Counted;
use crate::diagnosis::{Asked, Diagnosis, diagnose};
use crate::error::{Error, Result};
use crate::how::How;
use crate::maps::PartitionMap;
use crate::matching::Matching;
use crate::paths::{PathText, component};
use crate::records::{AllocExtent, DirEntry, LbAddr, LongAd};
use crate::stack::Item;
use crate::tree::Show;
use std::fmt;
use strandlodge_sys::vault::Volume;

/// Whether the image has a volume recognition sequence. Opening does not depend on it.
///
/// ```
/// # fn main() -> Result<(), strandlodge::Refusal> {
/// let image = strandlodge::write(&[("9", b"cue 9")])?;
/// assert!(strandlodge::probe_vrs(&image) && !strandlodge::probe_vrs(&[]));
/// # Ok(())
/// # }
/// ```
pub fn probe_vrs(image: &[u8]) -> bool {
    calls::probe(image)
}

/// Opens an image and returns its label.
///
/// ```no_run
/// # fn main() -> Result<(), Box<dyn std::error::Error>> {
/// println!("{}", strandlodge::read_volume_label(&std::fs::read("show.img")?)?);
/// # Ok(())
/// # }
/// ```
///
/// # Errors
///
/// Refusal 1 if a sector is missing, 2 if a descriptor is invalid, 3 if a descriptor is missing, 4 if the volume is not
/// supported; with [`How::checked`], 10 if a CRC is wrong.
pub fn read_volume_label(image: &[u8]) -> Result<String> {
    read_volume_label_as(image, How::default())
}

/// The same with choices on opening.
///
/// ```no_run
/// # fn main() -> Result<(), Box<dyn std::error::Error>> {
/// let how = strandlodge::How { highest: true, ..Default::default() };
/// println!("{}", strandlodge::read_volume_label_as(&std::fs::read("show.img")?, how)?);
/// # Ok(())
/// # }
/// ```
///
/// # Errors
///
/// Refusal 1 if a sector is missing, 2 if a descriptor is invalid, 3 if a descriptor is missing, 4 if the volume is not
/// supported; with [`How::checked`], 10 if a CRC is wrong.
pub fn read_volume_label_as(image: &[u8], how: How) -> Result<String> {
    Counted::label_of(image, how).map(|label| label.value).map_err(|refused| unopened(image, how, refused))
}

/// Adds the cause to a refused opening.
fn unopened(image: &[u8], how: How, refused: Refused) -> Error {
    Error::caused(refused, diagnose(image, how, &refused).cause)
}

/// Drops the count.
pub(crate) fn plain<T>(answered: Answered<T>) -> Result<T> {
    Ok(answered?.value)
}

/// An opened disc with its image. It owns the image (a `Vec<u8>`, a `Box<[u8]>`, a map) or borrows it (a `&[u8]`, a
/// `&Vec<u8>`, an `Arc<[u8]>`).
///
/// Its calls take `&self` and keep nothing, so it can be shared between threads, and copied if the image is a borrow.
/// They return plain values, as the original does; [`Disc::counted`] has the same calls with the number of sectors that
/// each asked for.
///
/// ```
/// use strandlodge::{LongAd, Disc};
///
/// # fn main() -> Result<(), Box<dyn std::error::Error>> {
/// let image = strandlodge::write(&[("9", &b"cue 9"[..]), ("10.1A", b"cue 10.1A")])?;
/// let disc = Disc::open(&image)?; // or Disc::open(image)?, which owns it
/// let icb: LongAd = disc.lookup("10.1A")?;
/// let look: Vec<u8> = disc.read_file(icb)?;
/// assert_eq!(look, b"cue 10.1A");
/// for entry in &disc.read_directory(disc.root_directory_icb())? {
///     println!("{}", entry.name);
/// }
/// # Ok(())
/// # }
/// ```
#[derive(Clone, Copy)]
pub struct Disc<B> {
    image: B,
    volume: Volume,
    how: How,
    sectors: u64,
}

impl<B: AsRef<[u8]>> fmt::Debug for Disc<B> {
    /// Leaves out the image, which may have many gigabytes.
    fn fmt(&self, f: &mut fmt::Formatter<'_>) -> fmt::Result {
        f.debug_struct("Disc")
            .field("partition_start_sector", &self.partition_start_sector())
            .field("partition_number", &self.partition_number())
            .field("root_directory_icb", &self.root_directory_icb())
            .finish_non_exhaustive()
    }
}

impl<B: AsRef<[u8]>> Disc<B> {
    /// Opens the volume of an image. If this is refused, the image is dropped; to keep it, open a borrow.
    ///
    /// ```no_run
    /// # fn main() -> Result<(), Box<dyn std::error::Error>> {
    /// let disc = strandlodge::Disc::open(std::fs::read("show.img")?)?;
    /// # Ok(())
    /// # }
    /// ```
    ///
    /// # Errors
    ///
    /// Refusal 1 if a sector is missing, 2 if a descriptor is invalid, 3 if a descriptor is missing, 4 if the volume is
    /// not supported; with [`How::checked`], 10 if a CRC is wrong.
    pub fn open(image: B) -> Result<Disc<B>> {
        Disc::open_as(image, How::default())
    }

    /// Opens the volume with choices: which of several descriptors of one kind counts, whether the CRCs of descriptors
    /// are checked, now and in every later call, and whether partition references go through the volume's maps.
    ///
    /// ```no_run
    /// # fn main() -> Result<(), Box<dyn std::error::Error>> {
    /// use strandlodge::{How, Disc};
    /// let disc = Disc::open_as(std::fs::read("show.img")?, How { checked: true, ..How::default() })?;
    /// # Ok(())
    /// # }
    /// ```
    ///
    /// # Errors
    ///
    /// Refusal 1 if a sector is missing, 2 if a descriptor is invalid, 3 if a descriptor is missing, 4 if the volume is
    /// not supported; with [`How::checked`], 10 if a CRC is wrong.
    pub fn open_as(image: B, how: How) -> Result<Disc<B>> {
        let Answer { value, sectors } = Counted::open_as(image.as_ref(), how).map_err(|refused| unopened(image.as_ref(), how, refused))?;
        let volume = value.volume();
        Ok(Disc { image, volume, how, sectors })
    }

    /// The same calls, each with the number of sectors that it asked for.
    ///
    /// ```
    /// # fn main() -> Result<(), Box<dyn std::error::Error>> {
    /// # let image = strandlodge::write(&[("9", b"cue 9")])?;
    /// let disc = strandlodge::Disc::open(image)?;
    /// let look = disc.counted().read_path("9")?;
    /// println!("{} bytes, {} sectors", look.value.len(), look.sectors);
    /// # Ok(())
    /// # }
    /// ```
    pub fn counted(&self) -> Counted<'_> {
        Counted::over(self.image.as_ref(), self.volume, self.how)
    }

    /// Drops the count; adds the cause to a refusal.
    pub(crate) fn told<T>(&self, asked: Asked, answered: Answered<T>) -> Result<T> {
        answered.map(|answer| answer.value).map_err(|refused| Error::caused(refused, self.counted().cause(asked, &refused)))
    }

    /// The number of sectors that opening asked for.
    pub fn sectors(&self) -> u64 {
        self.sectors
    }

    /// The image.
    pub fn image(&self) -> &[u8] {
        self.image.as_ref()
    }

    /// Returns the image.
    ///
    /// ```
    /// # fn main() -> Result<(), Box<dyn std::error::Error>> {
    /// # let image = strandlodge::write(&[("9", b"cue 9")])?;
    /// let image: Vec<u8> = strandlodge::Disc::open(image)?.into_inner();
    /// # Ok(())
    /// # }
    /// ```
    pub fn into_inner(self) -> B {
        self.image
    }

    /// The choices that it was opened with.
    pub fn how(&self) -> How {
        self.how
    }

    /// The sector where the partition starts; for a volume opened through its maps, the file set's partition.
    pub fn partition_start_sector(&self) -> u64 {
        self.counted().partition_start_sector()
    }

    /// The partition's number.
    pub fn partition_number(&self) -> u16 {
        self.counted().partition_number()
    }

    /// The partition maps that resolve references, in order; none without [`How::maps`](How). A reference is an index
    /// into them.
    pub fn maps(&self) -> Vec<PartitionMap> {
        self.counted().maps()
    }

    /// The sector of a block, given the partition reference that a descriptor on the disc has with it: through the
    /// maps, or without maps if the reference is the partition's number. `None` if it is in no partition of this
    /// volume; calls refuse that with 4.
    pub fn sector_of(&self, place: LbAddr) -> Option<u64> {
        self.counted().sector_of(place)
    }

    /// The sector of the entry that an ICB names. Without maps, the ICB's partition reference is ignored.
    pub fn icb_sector(&self, icb: impl Into<LongAd>) -> Option<u64> {
        self.counted().icb_sector(icb)
    }

    /// The first sector of an extent, as [`Disc::extents`] gives it for the file of this ICB. An extent that names no
    /// partition is in that of the file's entry. The extent's bytes begin at the start of that sector and continue in
    /// the next ones. `None` if a read that comes to this extent is refused with 4. The extent's type is not checked.
    pub fn extent_sector(&self, icb: impl Into<LongAd>, extent: &AllocExtent) -> Option<u64> {
        self.counted().extent_sector(icb, extent)
    }

    /// The missing sector, if [`Disc::read_file`] or [`Disc::read_directory`] of this ICB was refused with 1: the first
    /// of the file's sectors, in reading order, that is not there. `None` for any other refusal, and if the sector
    /// belongs to the chain after the file's entry, whose place no call gives.
    pub fn missing_sector(&self, icb: impl Into<LongAd>, refused: &Refused) -> Option<u64> {
        self.counted().missing_sector(icb, refused)
    }

    /// Where and why a call on this volume was refused; `refused` is what the call returned. This repeats the call, one
    /// sector at a time.
    ///
    /// ```no_run
    /// # fn main() -> Result<(), Box<dyn std::error::Error>> {
    /// # let disc = strandlodge::Disc::open(std::fs::read("show.img")?)?;
    /// let icb = disc.lookup("SHOW/9")?;
    /// if let Err(refused) = disc.read_file(icb) {
    ///     println!("{}", disc.diagnose(strandlodge::Asked::ReadFile(icb), &refused));
    /// }
    /// # Ok(())
    /// # }
    /// ```
    pub fn diagnose(&self, asked: Asked, refused: &Refused) -> Diagnosis {
        self.counted().diagnose(asked, refused)
    }

    /// The root directory.
    pub fn root_directory_icb(&self) -> LongAd {
        self.counted().root_directory_icb()
    }

    /// The volume's name, the original's `volume_identifier`. The call opens the image again.
    ///
    /// ```no_run
    /// # fn main() -> Result<(), Box<dyn std::error::Error>> {
    /// println!("{}", strandlodge::Disc::open(std::fs::read("show.img")?)?.label()?);
    /// # Ok(())
    /// # }
    /// ```
    ///
    /// # Errors
    ///
    /// The same refusals as opening: the image is opened again.
    pub fn label(&self) -> Result<String> {
        plain(self.counted().label())
    }

    /// The ICB that a path names. Slashes separate the components, and empty components are dropped; the empty path
    /// names the root. Of a directory's entries, the first that is equal with ASCII case ignored is taken.
    ///
    /// The entry may have another name than you asked for. For cues whose names differ only in case, use
    /// [`Disc::lookup_as`].
    ///
    /// ```no_run
    /// # fn main() -> Result<(), Box<dyn std::error::Error>> {
    /// # let disc = strandlodge::Disc::open(std::fs::read("show.img")?)?;
    /// let icb: strandlodge::LongAd = disc.lookup("SHOW/10.1A")?;
    /// # Ok(())
    /// # }
    /// ```
    ///
    /// # Errors
    ///
    /// Refusal 3 if a name on the path does not exist; and the refusals of a listing for each directory on the way.
    pub fn lookup(&self, path: impl AsRef<[u8]>) -> Result<LongAd> {
        self.lookup_as(path, Matching::CaseIgnored)
    }

    /// The same with a choice of matching.
    ///
    /// ```no_run
    /// # fn main() -> Result<(), Box<dyn std::error::Error>> {
    /// # let disc = strandlodge::Disc::open(std::fs::read("show.img")?)?;
    /// let icb = disc.lookup_as("SHOW/10.1a", strandlodge::Matching::AsWritten)?;
    /// # Ok(())
    /// # }
    /// ```
    ///
    /// # Errors
    ///
    /// Refusal 3 if a name on the path does not exist, 9 if it is ambiguous; and the refusals of a listing for each
    /// directory on the way.
    pub fn lookup_as(&self, path: impl AsRef<[u8]>, matching: Matching) -> Result<LongAd> {
        let path = path.as_ref();
        self.told(Asked::Lookup(path, matching), self.counted().lookup_as(path, matching))
    }

    /// The component at which [`Disc::lookup`] finds nothing, as a part of the path: a `str` of a `str`, bytes of
    /// bytes. `None` if the path exists.
    ///
    /// ```no_run
    /// # fn main() -> Result<(), Box<dyn std::error::Error>> {
    /// # let disc = strandlodge::Disc::open(std::fs::read("show.img")?)?;
    /// assert_eq!(disc.failed("SHOW/12")?, Some("12"));
    /// # Ok(())
    /// # }
    /// ```
    ///
    /// # Errors
    ///
    /// The refusals of the lookup, except 3.
    pub fn failed<'p, P: PathText + ?Sized>(&self, path: &'p P) -> Result<Option<&'p P::Component>> {
        self.failed_as(path, Matching::CaseIgnored)
    }

    /// The same for [`Disc::lookup_as`]. An ambiguous component is not one at which nothing is found: the call is then
    /// refused as the lookup is.
    ///
    /// ```no_run
    /// # fn main() -> Result<(), Box<dyn std::error::Error>> {
    /// # let disc = strandlodge::Disc::open(std::fs::read("show.img")?)?;
    /// assert_eq!(disc.failed_as("show/9", strandlodge::Matching::AsWritten)?, Some("show"));
    /// # Ok(())
    /// # }
    /// ```
    ///
    /// # Errors
    ///
    /// The refusals of the lookup, except 3.
    pub fn failed_as<'p, P: PathText + ?Sized>(&self, path: &'p P, matching: Matching) -> Result<Option<&'p P::Component>> {
        let bytes = path.bytes();
        let found = self.told(Asked::Lookup(bytes, matching), self.counted().failed_as(bytes, matching))?;
        Ok(found.and_then(|found| component(path, found)))
    }

    /// The entries of a directory in the order of the disc, without deleted entries and the parent.
    ///
    /// ```no_run
    /// # fn main() -> Result<(), Box<dyn std::error::Error>> {
    /// # let disc = strandlodge::Disc::open(std::fs::read("show.img")?)?;
    /// for entry in &disc.read_directory(disc.root_directory_icb())? {
    ///     println!("{}{}", entry.name, if entry.is_directory { "/" } else { "" });
    /// }
    /// # Ok(())
    /// # }
    /// ```
    ///
    /// # Errors
    ///
    /// Refusal 1 if a sector is missing, 2 if a descriptor or a name is invalid, 4 if the directory is not supported,
    /// 10 if CRCs are checked and one is wrong; 5 or 6 if there is not enough memory.
    pub fn read_directory(&self, icb: impl Into<LongAd>) -> Result<Vec<DirEntry>> {
        let icb = icb.into();
        self.told(Asked::ReadDirectory(icb), self.counted().read_directory(icb))
    }

    /// Everything on the volume, down to `levels` levels, 1 to 16: one entry for each path. An entry comes before what
    /// is below it, and the entries of a directory come in the order of the disc, without deleted entries and the
    /// parent.
    ///
    /// It is all or nothing: any refusal on the way refuses the show. A directory at the last level, even an empty one,
    /// is refused with 11, and so is any other number of levels. A directory that contains itself reaches the last
    /// level.
    ///
    /// A directory is listed once for each path to it, and a few directories may have more paths than anyone could ever
    /// list. So the call has a budget of `most` sectors. Instead of asking for one more, it is refused with 16.
    /// [`UNLIMITED`](crate::UNLIMITED) is for discs that you trust.
    ///
    /// ```no_run
    /// # fn main() -> Result<(), Box<dyn std::error::Error>> {
    /// # let disc = strandlodge::Disc::open(std::fs::read("show.img")?)?;
    /// for one in disc.show(16, 1_000_000)? {
    ///     println!("{}{}", one.path, if one.entry.is_directory { "/" } else { "" });
    /// }
    /// # Ok(())
    /// # }
    /// ```
    ///
    /// # Errors
    ///
    /// Refusal 11 if a directory is at the last level, or the levels are not 1 to 16; 16 if more sectors are needed
    /// than the budget allows; and the refusals of a listing for each directory on the way.
    pub fn show(&self, levels: u32, most: u64) -> Result<Show> {
        self.told(Asked::Show(levels), self.counted().show(levels, most))
    }

    /// The bytes of a file, or of a directory itself.
    ///
    /// ```no_run
    /// # fn main() -> Result<(), Box<dyn std::error::Error>> {
    /// # let disc = strandlodge::Disc::open(std::fs::read("show.img")?)?;
    /// let look: Vec<u8> = disc.read_file(disc.lookup("SHOW/9")?)?;
    /// # Ok(())
    /// # }
    /// ```
    ///
    /// # Errors
    ///
    /// Refusal 1 if a sector is missing, 2 if a descriptor is invalid, 4 if the file is not supported, 10 if CRCs are
    /// checked and one is wrong; 5 if there is not enough memory for its bytes.
    pub fn read_file(&self, icb: impl Into<LongAd>) -> Result<Vec<u8>> {
        let icb = icb.into();
        self.told(Asked::ReadFile(icb), self.counted().read_file(icb))
    }

    /// How many bytes [`Disc::read_file`] gives: those of its extents, up to the length that its entry gives. The
    /// refusals are those of the read, except for lack of memory.
    ///
    /// ```
    /// # fn main() -> Result<(), Box<dyn std::error::Error>> {
    /// let disc = strandlodge::Disc::open(strandlodge::write(&[("9", b"cue 9")])?)?;
    /// assert_eq!(disc.measure(disc.lookup("9")?)?, 5);
    /// # Ok(())
    /// # }
    /// ```
    ///
    /// # Errors
    ///
    /// The refusals of the read, except those for lack of memory.
    pub fn measure(&self, icb: impl Into<LongAd>) -> Result<u64> {
        let icb = icb.into();
        self.told(Asked::ReadFile(icb), self.counted().measure(icb))
    }

    /// Looks a path up and reads what it names.
    ///
    /// ```no_run
    /// fn load(disc: &strandlodge::Disc<Vec<u8>>, cue: &str) -> strandlodge::Result<Vec<u8>> {
    ///     Ok(disc.read_path(cue)?)
    /// }
    /// ```
    ///
    /// # Errors
    ///
    /// The refusals of the lookup, then those of the read.
    pub fn read_path(&self, path: impl AsRef<[u8]>) -> Result<Vec<u8>> {
        self.read_path_as(path, Matching::CaseIgnored)
    }

    /// The same with a choice of matching.
    ///
    /// ```no_run
    /// # fn main() -> Result<(), Box<dyn std::error::Error>> {
    /// # let disc = strandlodge::Disc::open(std::fs::read("show.img")?)?;
    /// let look = disc.read_path_as("SHOW/10.1a", strandlodge::Matching::AsWritten)?;
    /// # Ok(())
    /// # }
    /// ```
    ///
    /// # Errors
    ///
    /// The refusals of the lookup, then those of the read.
    pub fn read_path_as(&self, path: impl AsRef<[u8]>, matching: Matching) -> Result<Vec<u8>> {
        let path = path.as_ref();
        self.told(Asked::ReadPath(path, matching), self.counted().read_path_as(path, matching))
    }

    /// Reads many paths. For each, in order, you get its bytes or its refusal, as [`Disc::read_path`] gives them; a
    /// path that is refused does not affect the others. The call itself is refused, with 12, only if there is no memory
    /// for the list.
    ///
    /// ```no_run
    /// # fn main() -> Result<(), Box<dyn std::error::Error>> {
    /// # let disc = strandlodge::Disc::open(std::fs::read("show.img")?)?;
    /// let cues = ["SHOW/9", "SHOW/10.1A", "SHOW/11"];
    /// for (cue, look) in cues.iter().zip(disc.read_all(&cues)?) {
    ///     match look {
    ///         Ok(bytes) => println!("{cue}: {} bytes", bytes.len()),
    ///         Err(why) => println!("{cue}: {why}"),
    ///     }
    /// }
    /// # Ok(())
    /// # }
    /// ```
    ///
    /// # Errors
    ///
    /// Refusal 12 if there is no memory for the list. The refusal of a path is in its item.
    pub fn read_all(&self, paths: &[impl AsRef<[u8]>]) -> Result<Vec<Item>> {
        plain(self.counted().read_all(paths))
    }

    /// The same with a choice of matching for every path.
    ///
    /// ```no_run
    /// # fn main() -> Result<(), Box<dyn std::error::Error>> {
    /// # let disc = strandlodge::Disc::open(std::fs::read("show.img")?)?;
    /// let looks = disc.read_all_as(&["SHOW/10.1A", "SHOW/10.1a"], strandlodge::Matching::AsWritten)?;
    /// # Ok(())
    /// # }
    /// ```
    ///
    /// # Errors
    ///
    /// Refusal 12 if there is no memory for the list. The refusal of a path is in its item.
    pub fn read_all_as(&self, paths: &[impl AsRef<[u8]>], matching: Matching) -> Result<Vec<Item>> {
        plain(self.counted().read_all_as(paths, matching))
    }

    /// Where a file is on the disc, following its whole chain. An embedded file has no extents.
    ///
    /// ```no_run
    /// # fn main() -> Result<(), Box<dyn std::error::Error>> {
    /// # let disc = strandlodge::Disc::open(std::fs::read("show.img")?)?;
    /// let icb = disc.lookup("SHOW/9")?;
    /// for extent in disc.extents(icb)? {
    ///     println!("{} bytes from sector {:?} on", extent.length, disc.extent_sector(icb, &extent));
    /// }
    /// # Ok(())
    /// # }
    /// ```
    ///
    /// # Errors
    ///
    /// The refusals of the read before it comes to the file's bytes; 7 if there is no memory for the extents.
    pub fn extents(&self, icb: impl Into<LongAd>) -> Result<Vec<AllocExtent>> {
        let icb = icb.into();
        self.told(Asked::ReadFile(icb), self.counted().extents(icb))
    }

    /// The bytes of an embedded file, in the image; empty for any other file that can be read.
    ///
    /// ```no_run
    /// # fn main() -> Result<(), Box<dyn std::error::Error>> {
    /// # let disc = strandlodge::Disc::open(std::fs::read("show.img")?)?;
    /// let bytes: &[u8] = disc.part(disc.root_directory_icb())?;
    /// # Ok(())
    /// # }
    /// ```
    ///
    /// # Errors
    ///
    /// The refusals of the read before it comes to the file's bytes.
    pub fn part(&self, icb: impl Into<LongAd>) -> Result<&[u8]> {
        let icb = icb.into();
        self.told(Asked::ReadFile(icb), self.counted().part(icb))
    }
}
