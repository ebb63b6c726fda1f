//! The calls with their sector counts, over a borrowed image.

use crate::answer::{Answer, Answered, Refusal, Refused};
use crate::calls;
use crate::cause::{Cause, of_call};
use crate::counted_drive::CountedDrive;
use crate::diagnosis::{Asked, Diagnosis, Sought, is_of_the_disc};
use crate::how::How;
use crate::maps::{PartitionMap, maps, place_of, started};
use crate::matching::Matching;
use crate::records::{AllocExtent, DirEntry, LbAddr, LongAd, entries, text};
use crate::room::{AT_ONCE, FIRST, MOST_DIRECTORY, MOST_SHOW, Room, exactly, most_file, most_listed, retry};
use crate::source::{Copied, Source};
use crate::stack::{Item, List, Stack, copied, too_many};
use crate::tree::Show;
use std::fmt;
use strandlodge_sys::vault::{Extent, Volume};

/// The number of bytes in a sector, and in a block.
pub const SECTOR_SIZE: u64 = 2048;

/// The number of slots lent at first for an extent list or for runs.
pub(crate) const FIRST_SLOTS: usize = 256;

/// The longest extent list: 32 continuations of at most 2^20 bytes and an entry of 2,048, with 8 bytes for each
/// descriptor.
pub(crate) const MOST_SLOTS: usize = 32 * ((1 << 20) / 8) + 2048 / 8;

/// A label has at most 30 recorded bytes of one or two bytes of UTF-8 each, or 15 pairs of at most three.
const LABEL: usize = 64;

/// Opens an image with choices and returns its label.
fn label(image: &[u8], how: How) -> Answered<String> {
    let mut out = Room::new(LABEL, LABEL);
    let answer = calls::label(image, how.number(), &mut out.lent)?;
    kept(answer, Refusal::NoRoom, |()| text(&out.lent))
}

/// Converts the value of an answer, which may fail for lack of memory.
fn kept<T, U>(answer: Answer<T>, full: Refusal, make: impl FnOnce(T) -> Option<U>) -> Answered<U> {
    let sectors = answer.sectors;
    let value = make(answer.value).ok_or(Refused { why: full, sectors })?;
    Ok(Answer { value, sectors })
}

/// A [`Disc`](crate::Disc) over a borrowed image whose calls also return how many sectors they asked for, as an
/// [`Answer`]. [`Disc::counted`](crate::Disc::counted) gives you one. It is small and holds only a borrow: you can copy
/// it and share it between threads.
///
/// ```
/// # fn main() -> std::result::Result<(), Box<dyn std::error::Error>> {
/// let image = strandlodge::write(&[("9", b"cue 9")])?;
/// let disc = strandlodge::Counted::open(&image)?;
/// let look = disc.read_path("9")?;
/// println!("{} sectors to open it, {} to read {} bytes", disc.sectors, look.sectors, look.len());
/// # Ok(())
/// # }
/// ```
#[derive(Clone, Copy)]
pub struct Counted<'a> {
    image: &'a [u8],
    volume: Volume,
    how: How,
}

impl fmt::Debug for Counted<'_> {
    /// Leaves out the image, which may have many gigabytes.
    fn fmt(&self, f: &mut fmt::Formatter<'_>) -> fmt::Result {
        f.debug_struct("Counted")
            .field("partition_start_sector", &self.partition_start_sector())
            .field("partition_number", &self.partition_number())
            .field("root_directory_icb", &self.root_directory_icb())
            .finish_non_exhaustive()
    }
}

impl<'a> Counted<'a> {
    /// Opens the volume of an image.
    ///
    /// # Errors
    ///
    /// Refusal 1 if a sector is missing, 2 if a descriptor is invalid, 3 if a descriptor is missing, 4 if the volume is
    /// not supported; with [`How::checked`], 10 if a CRC is wrong.
    pub fn open(image: &'a [u8]) -> Answered<Counted<'a>> {
        Counted::open_as(image, How::default())
    }

    /// Opens the volume with choices: which of several descriptors of one kind counts, whether the CRCs of descriptors
    /// are checked, now and in every later call, and whether partition references go through the volume's maps.
    ///
    /// # Errors
    ///
    /// Refusal 1 if a sector is missing, 2 if a descriptor is invalid, 3 if a descriptor is missing, 4 if the volume is
    /// not supported; with [`How::checked`], 10 if a CRC is wrong.
    pub fn open_as(image: &'a [u8], how: How) -> Answered<Counted<'a>> {
        Ok(calls::open(image, how.number())?.map(|volume| Counted { image, volume, how }))
    }

    /// The image.
    pub fn image(&self) -> &'a [u8] {
        self.image
    }

    /// Opens an image with choices and returns its label.
    ///
    /// # Errors
    ///
    /// Refusal 1 if a sector is missing, 2 if a descriptor is invalid, 3 if a descriptor is missing, 4 if the volume is
    /// not supported; with [`How::checked`], 10 if a CRC is wrong.
    pub fn label_of(image: &[u8], how: How) -> Answered<String> {
        label(image, how)
    }

    /// From the volume that opening returned.
    pub(crate) fn over(image: &'a [u8], volume: Volume, how: How) -> Counted<'a> {
        Counted { image, volume, how }
    }

    pub(crate) fn volume(&self) -> Volume {
        self.volume
    }

    /// The choices that it was opened with.
    pub fn how(&self) -> How {
        self.how
    }

    /// The sector where the partition starts; for a volume opened through its maps, the file set's partition.
    pub fn partition_start_sector(&self) -> u64 {
        self.volume.mount.start.into()
    }

    /// The partition's number.
    pub fn partition_number(&self) -> u16 {
        self.volume.mount.partition
    }

    /// The partition maps that resolve references, in order; none without [`How::maps`](How). A reference is an index
    /// into them.
    pub fn maps(&self) -> Vec<PartitionMap> {
        maps(self.volume.mount)
    }

    /// The sector of a block, given the partition reference that a descriptor on the disc has with it: through the
    /// maps, or without maps if the reference is the partition's number. `None` if it is in no partition of this
    /// volume; calls refuse that with 4.
    pub fn sector_of(&self, place: LbAddr) -> Option<u64> {
        place_of(self.volume.mount, place)
    }

    /// The sector of the entry that an ICB names. Without maps, the ICB's partition reference is ignored.
    pub fn icb_sector(&self, icb: impl Into<LongAd>) -> Option<u64> {
        let (icb, mount) = (icb.into(), self.volume.mount);
        Some(started(mount, icb)? + u64::from(icb.location.block))
    }

    /// The first sector of an extent, as [`Counted::extents`] gives it for the file of this ICB. An extent that names
    /// no partition is in that of the file's entry. The extent's bytes begin at the start of that sector and continue
    /// in the next ones. `None` if a read that comes to this extent is refused with 4. The extent's type is not
    /// checked.
    pub fn extent_sector(&self, icb: impl Into<LongAd>, extent: &AllocExtent) -> Option<u64> {
        match extent.partition_ref {
            Some(partition_ref) => self.sector_of(LbAddr { block: extent.block, partition_ref }),
            None => Some(started(self.volume.mount, icb.into())? + u64::from(extent.block)),
        }
    }

    /// The missing sector, if [`Counted::read_file`] or [`Counted::read_directory`] of this ICB was refused with 1: the
    /// first of the file's sectors, in reading order, that is not there. `None` for any other refusal, and if the
    /// sector belongs to the chain after the file's entry, whose place no call gives.
    ///
    /// The count of a refusal 1 is the position of the missing sector among those that the call asked for.
    /// [`Counted::extents`] asks only for those of the entry and the chain, which come first; the rest of the count is
    /// the position among the sectors of the extents.
    pub fn missing_sector(&self, icb: impl Into<LongAd>, refused: &Refused) -> Option<u64> {
        let icb = icb.into();
        if !refused.may_pass() {
            return None;
        }
        if refused.sectors == 1 {
            return self.icb_sector(icb);
        }
        let extents = self.extents(icb).ok()?;
        // How many of the extents' sectors are there in front of it.
        let mut before = refused.sectors.checked_sub(extents.sectors)?.checked_sub(1)?;
        for extent in &extents.value {
            let sectors = u64::from(extent.length).div_ceil(SECTOR_SIZE);
            if before < sectors {
                return Some(self.extent_sector(icb, extent)? + before);
            }
            before -= sectors;
        }
        None
    }

    /// Where and why a call on this volume was refused; `refused` is what the call returned. This repeats the call.
    pub fn diagnose(&self, asked: Asked, refused: &Refused) -> Diagnosis {
        if let Asked::ReadFile(icb) = asked
            && let Some(sector) = self.missing_sector(icb, refused)
        {
            // A file may have many gigabytes in front of it, which needn't be gone over.
            let sought = if refused.sectors == 1 { Sought::Entry } else { Sought::Bytes };
            return Diagnosis::at(*refused, Some((sector, sought)), &mut Source::new(Copied::new(self.image)));
        }
        let mut again = CountedDrive::over(Copied::new(self.image), self.volume);
        if !is_of_the_disc(refused.why) || again.replay(asked) != Some(refused.why) {
            return Diagnosis::bare(*refused);
        }
        again.diagnose(refused)
    }

    /// The cause that [`Counted::diagnose`] gives, without reading a file's bytes again.
    pub(crate) fn cause(&self, asked: Asked, refused: &Refused) -> Option<Cause> {
        if !matches!(refused.why, Refusal::Unsupported | Refusal::Malformed) {
            return None;
        }
        let found = match asked {
            Asked::ReadFile(icb) => Some(icb),
            Asked::ReadPath(path, matching) => self.lookup_as(path, matching).ok().map(|icb| icb.value),
            _ => None,
        };
        match found {
            Some(icb) => of_call(&mut Source::new(Copied::new(self.image)), self.volume.mount, icb, refused.why),
            None => self.diagnose(asked, refused).cause,
        }
    }

    /// The root directory.
    pub fn root_directory_icb(&self) -> LongAd {
        LongAd::of_c(self.volume.root)
    }

    /// The volume's name. The call opens the image again; the count is that of opening.
    ///
    /// # Errors
    ///
    /// The same refusals as opening: the image is opened again.
    pub fn label(&self) -> Answered<String> {
        label(self.image, self.how)
    }

    /// The ICB that a path names. Slashes separate the components, and empty components are dropped; the empty path
    /// names the root. Of a directory's entries, the first that is equal with ASCII case ignored is taken.
    ///
    /// The entry may have another name than you asked for. For cues whose names differ only in case, use
    /// [`Counted::lookup_as`].
    ///
    /// # Errors
    ///
    /// Refusal 3 if a name on the path does not exist; and the refusals of a listing for each directory on the way.
    pub fn lookup(&self, path: impl AsRef<[u8]>) -> Answered<LongAd> {
        self.lookup_as(path, Matching::CaseIgnored)
    }

    /// The same with a choice of matching.
    ///
    /// # Errors
    ///
    /// Refusal 3 if a name on the path does not exist, 9 if it is ambiguous; and the refusals of a listing for each
    /// directory on the way.
    pub fn lookup_as(&self, path: impl AsRef<[u8]>, matching: Matching) -> Answered<LongAd> {
        let path = path.as_ref();
        retry::<u8, _>(&mut Room::none(), &mut work_space(), |_, work| calls::lookup(self.volume, self.image, path, matching, work))
    }

    /// The component at which [`Counted::lookup`] finds nothing, as a part of the path; `None` if the path exists.
    ///
    /// # Errors
    ///
    /// The refusals of the lookup, except 3.
    pub fn failed<'p>(&self, path: &'p (impl AsRef<[u8]> + ?Sized)) -> Answered<Option<&'p [u8]>> {
        self.failed_as(path, Matching::CaseIgnored)
    }

    /// The same for [`Counted::lookup_as`]. An ambiguous component is not one at which nothing is found: the call is
    /// then refused as the lookup is.
    ///
    /// # Errors
    ///
    /// The refusals of the lookup, except 3.
    pub fn failed_as<'p>(&self, path: &'p (impl AsRef<[u8]> + ?Sized), matching: Matching) -> Answered<Option<&'p [u8]>> {
        let path = path.as_ref();
        retry::<u8, _>(&mut Room::none(), &mut work_space(), |_, work| calls::failed(self.volume, self.image, path, matching, work))
    }

    /// The entries of a directory in the order of the disc, without deleted entries and the parent.
    ///
    /// # Errors
    ///
    /// Refusal 1 if a sector is missing, 2 if a descriptor or a name is invalid, 4 if the directory is not supported,
    /// 10 if CRCs are checked and one is wrong; 5 or 6 if there is not enough memory.
    pub fn read_directory(&self, icb: impl Into<LongAd>) -> Answered<Vec<DirEntry>> {
        let icb = icb.into();
        let bytes = self.measure(icb)?;
        let full = |why| Refused { why, sectors: bytes.sectors };
        let mut work = exactly(bytes.value, MOST_DIRECTORY).ok_or(full(Refusal::NoWork))?;
        let most = most_listed(work.capacity());
        let mut out = exactly(most as u64, most).ok_or(full(Refusal::NoRoom))?;
        let answer = calls::list(self.volume, self.image, icb, &mut out, &mut work)?;
        drop(work);
        kept(answer, Refusal::NoRoom, |()| entries(&out))
    }

    /// Everything on the volume, down to `levels` levels, 1 to 16: one entry for each path. An entry comes before what
    /// is below it, and the entries of a directory come in the order of the disc, without deleted entries and the
    /// parent.
    ///
    /// It is all or nothing: any refusal on the way refuses the show. A directory at the last level, even an empty one,
    /// is refused with 11, and so is any other number of levels. A directory that contains itself reaches the last
    /// level.
    ///
    /// A directory is listed once for each path to it, and a few directories may have more paths than anyone could ever
    /// list. So the call has a budget of `most` sectors. Instead of asking for one more, it is refused with 16, and its
    /// count is `most`. [`UNLIMITED`](crate::UNLIMITED) is for discs that you trust.
    ///
    /// ```no_run
    /// # fn main() -> std::result::Result<(), Box<dyn std::error::Error>> {
    /// let image = std::fs::read("show.img")?;
    /// let disc = strandlodge::Counted::open(&image)?;
    /// for one in disc.show(16, 1_000_000)? {
    ///     println!("{}{}", one.path, if one.entry.is_directory { "/" } else { "" });
    /// }
    /// # Ok(())
    /// # }
    /// ```
    ///
    /// # Errors
    ///
    /// Refusal 11 if a directory is at the last level, or the levels are not 1 to 16; 16 if more sectors are needed
    /// than the budget allows; and the refusals of a listing for each directory on the way.
    pub fn show(&self, levels: u32, most: u64) -> Answered<Show> {
        let mut out = Room::new(FIRST, MOST_SHOW);
        let answer = retry(&mut out, &mut work_space(), |out, work| calls::show(self.volume, self.image, levels, most, out, work))?;
        out.lent.shrink_to_fit();
        Ok(answer.map(|()| Show::of(out.lent)))
    }

    /// The bytes of a file, or of a directory itself.
    ///
    /// # Errors
    ///
    /// Refusal 1 if a sector is missing, 2 if a descriptor is invalid, 4 if the file is not supported, 10 if CRCs are
    /// checked and one is wrong; 5 if there is not enough memory for its bytes.
    pub fn read_file(&self, icb: impl Into<LongAd>) -> Answered<Vec<u8>> {
        let icb = icb.into();
        let bytes = self.measure(icb)?;
        let full = Refused { why: Refusal::NoRoom, sectors: bytes.sectors };
        let mut out = exactly(bytes.value, most_file(self.image)).ok_or(full)?;
        Ok(calls::read(self.volume, self.image, icb, &mut out)?.map(|()| out))
    }

    /// How many bytes [`Counted::read_file`] gives, with its refusals and its count, except 5, which is for lack of
    /// memory.
    ///
    /// # Errors
    ///
    /// The refusals of the read, except those for lack of memory.
    pub fn measure(&self, icb: impl Into<LongAd>) -> Answered<u64> {
        calls::measure(self.volume, self.image, icb.into())
    }

    /// Looks a path up and reads what it names. The count covers both.
    ///
    /// # Errors
    ///
    /// The refusals of the lookup, then those of the read.
    pub fn read_path(&self, path: impl AsRef<[u8]>) -> Answered<Vec<u8>> {
        self.read_path_as(path, Matching::CaseIgnored)
    }

    /// The same with a choice of matching.
    ///
    /// # Errors
    ///
    /// The refusals of the lookup, then those of the read.
    pub fn read_path_as(&self, path: impl AsRef<[u8]>, matching: Matching) -> Answered<Vec<u8>> {
        let found = self.lookup_as(path, matching)?;
        let both = |sectors: u64| found.sectors.saturating_add(sectors);
        match self.read_file(found.value) {
            Ok(Answer { value, sectors }) => Ok(Answer { value, sectors: both(sectors) }),
            Err(Refused { why, sectors }) => Err(Refused { why, sectors: both(sectors) }),
        }
    }

    /// Reads many paths. For each, in order, you get its bytes or its refusal, as [`Counted::read_path`] gives them; a
    /// path that is refused does not affect the others. The count is the sum, each path's sectors once.
    ///
    /// One call of the archive reads up to 1,024 paths. A file that doesn't fit into what is left of the lent room is
    /// read by itself. So is a path that contains a zero byte, which the archive's list can't hold. (No name contains
    /// that byte, so such a path is refused: with 3, unless something before it is refused.) The call itself is
    /// refused, with 12, only if there is no memory for the list.
    ///
    /// ```no_run
    /// # fn main() -> std::result::Result<(), Box<dyn std::error::Error>> {
    /// let image = std::fs::read("show.img")?;
    /// let disc = strandlodge::Counted::open(&image)?;
    /// let cues = ["SHOW/9", "SHOW/10.1A", "SHOW/11"];
    /// for (cue, look) in cues.iter().zip(disc.read_all(&cues)?) {
    ///     match look {
    ///         Ok(bytes) => println!("{cue}: {} bytes", bytes.len()),
    ///         Err(why) => println!("{cue}: {why}"),
    ///     }
    /// }
    /// # Ok(())
    /// # }
    /// ```
    ///
    /// # Errors
    ///
    /// Refusal 12 if there is no memory for the list. The refusal of a path is in its item.
    pub fn read_all(&self, paths: &[impl AsRef<[u8]>]) -> Answered<Vec<Item>> {
        self.read_all_as(paths, Matching::CaseIgnored)
    }

    /// The same with a choice of matching for every path.
    ///
    /// # Errors
    ///
    /// Refusal 12 if there is no memory for the list. The refusal of a path is in its item.
    pub fn read_all_as(&self, paths: &[impl AsRef<[u8]>], matching: Matching) -> Answered<Vec<Item>> {
        let (mut all, mut work) = (Answer { value: Vec::new(), sectors: 0 }, work_space());
        all.value.try_reserve_exact(paths.len()).map_err(|_| too_many())?;
        for paths in paths.chunks(AT_ONCE) {
            let list = List::of(paths).ok_or_else(too_many)?;
            let mut stack = Stack::read(self.volume, self.image, &list, matching, &mut work)?;
            all.sectors = all.sectors.saturating_add(stack.sectors);
            for path in paths.iter().map(AsRef::as_ref) {
                let came = if List::can_have(path) { stack.next() } else { None };
                let (item, sectors) = match came {
                    Some(Ok(bytes)) => (copied(bytes), 0),
                    // Its sectors are counted already: 5 comes behind all of them.
                    Some(Err(Refusal::NoRoom)) => (self.alone(path, matching).0, 0),
                    Some(Err(why)) => (Err(why), 0),
                    None => self.alone(path, matching),
                };
                all.value.push(item);
                all.sectors = all.sectors.saturating_add(sectors);
            }
        }
        Ok(all)
    }

    /// Reads a path of a list by itself, and counts its sectors.
    fn alone(&self, path: &[u8], matching: Matching) -> (Item, u64) {
        match self.read_path_as(path, matching) {
            Ok(answer) => (Ok(answer.value), answer.sectors),
            Err(refused) => (Err(refused.why), refused.sectors),
        }
    }

    /// Where a file is on the disc, following its whole chain. An embedded file has no extents.
    ///
    /// # Errors
    ///
    /// The refusals of the read before it comes to the file's bytes; 7 if there is no memory for the extents.
    pub fn extents(&self, icb: impl Into<LongAd>) -> Answered<Vec<AllocExtent>> {
        let icb = icb.into();
        let mut row = Room::new(FIRST_SLOTS, MOST_SLOTS);
        let answer = retry(&mut row, &mut Room::none(), |row, _| calls::extents(self.volume, self.image, icb, row))?;
        kept(answer, Refusal::NoSlot, |()| {
            let mut extents = Vec::new();
            extents.try_reserve_exact(row.lent.len()).ok()?;
            extents.extend(row.lent.iter().map(extent));
            Some(extents)
        })
    }

    /// The bytes of an embedded file, in the image; empty for any other file that can be read.
    ///
    /// # Errors
    ///
    /// The refusals of the read before it comes to the file's bytes.
    pub fn part(&self, icb: impl Into<LongAd>) -> Answered<&'a [u8]> {
        calls::part(self.volume, self.image, icb.into())
    }
}

/// Work space for the directories on a path.
fn work_space() -> Room<u8> {
    Room::new(FIRST, MOST_DIRECTORY)
}

/// Partition 65,536 means none; a type is at most 3.
fn extent(slot: &Extent) -> AllocExtent {
    AllocExtent {
        length: slot.length,
        extent_type: slot.extent_type as u8,
        block: slot.block,
        partition_ref: u16::try_from(slot.partition).ok(),
    }
}
