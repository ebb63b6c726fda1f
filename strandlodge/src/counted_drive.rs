//! The calls over a reader, one sector at a time, for a disc that doesn't fit in memory.
//!
//! The archive names the sector that it wants, is lent its bytes, and continues. What it asks for and what it answers
//! are those of the calls on an image. This module adds the reader and the memory. The row of extents and the output
//! are lengthened between steps, so neither is ever too short while there is memory, and no read has to be repeated:
//! each sector is asked of the reader once.

use crate::answer::{Answer, Answered, Refusal, Refused};
use crate::calls::{self, Row};
use crate::cause::of_call;
use crate::counted::SECTOR_SIZE;
use crate::diagnosis::{Asked, Diagnosis, Sought, is_of_the_disc, opening};
use crate::how::How;
use crate::matching::Matching;
use crate::records::{DirEntry, LongAd, entries};
use crate::room::{MOST_DIRECTORY, SOME_FILE};
use crate::source::{Missed, Source, TOGETHER};
use std::convert::Infallible;
use std::io::{self, Read, Seek, Write};
use std::{error, fmt};
use strandlodge_sys::vault::{Extent, Reading, Volume};

const SECTOR: usize = SECTOR_SIZE as usize;

/// The most extents of one sector: 2,048 bytes of descriptors of at least 8 bytes, and one that began before.
const MOST_EXTENTS: usize = SECTOR / 8 + 1;

/// The size of the buffer for a writer, in bytes.
const WINDOW: usize = TOGETHER as usize * SECTOR;

/// A [`Drive`](crate::Drive) whose calls also return how many sectors they asked the reader for, as an [`Answer`].
/// [`Drive::counted`](crate::Drive::counted) gives you one.
///
/// ```no_run
/// use strandlodge::CountedDrive;
///
/// # fn main() -> std::result::Result<(), Box<dyn std::error::Error>> {
/// let mut drive = CountedDrive::open(std::fs::File::open("/dev/sr0")?)?;
/// let look = drive.read_path("SHOW/10.1A")?;
/// println!("{} bytes, {} sectors", look.len(), look.sectors);
/// # Ok(())
/// # }
/// ```
pub struct CountedDrive<R> {
    source: Source<R>,
    volume: Volume,
    trail: Trail,
}

/// The trail of the last call.
#[derive(Default)]
struct Trail {
    /// The last sector that it asked for, and for what.
    last: Option<(u64, Sought)>,
    /// The last ICB that it read.
    icb: Option<LongAd>,
}

impl<R> fmt::Debug for CountedDrive<R> {
    /// Leaves out the reader, which may have nothing to show.
    fn fmt(&self, f: &mut fmt::Formatter<'_>) -> fmt::Result {
        f.debug_struct("CountedDrive")
            .field("partition_start_sector", &self.partition_start_sector())
            .field("partition_number", &self.partition_number())
            .field("root_directory_icb", &self.root_directory_icb())
            .finish_non_exhaustive()
    }
}

impl<R> CountedDrive<R> {
    /// The sector where the partition starts.
    pub fn partition_start_sector(&self) -> u64 {
        self.volume.mount.start.into()
    }

    /// The partition's number.
    pub fn partition_number(&self) -> u16 {
        self.volume.mount.partition
    }

    /// The root directory.
    pub fn root_directory_icb(&self) -> LongAd {
        LongAd::of_c(self.volume.root)
    }

    /// The volume's name. This asks for no sector: opening kept the label field.
    ///
    /// # Errors
    ///
    /// Refusal 2 if the field is not a valid name.
    pub fn label(&self) -> Answered<String> {
        let [field @ .., length] = self.volume.label;
        let refused = |why| Refused { why, sectors: 0 };
        let name = field.get(..length.into()).ok_or(refused(Refusal::Malformed))?;
        let listed = self.listed(&identifier(name), 0)?.value;
        Ok(Answer { value: listed.into_iter().next().map(|entry| entry.name).unwrap_or_default(), sectors: 0 })
    }

    /// The sector that the reader could not read, if the last call was refused with 1.
    pub fn missed(&self) -> Option<&Missed> {
        self.source.missed.as_ref()
    }

    /// The reader.
    pub fn get_ref(&self) -> &R {
        &self.source.reader
    }

    /// Returns the reader, at whatever position the last call left it.
    pub fn into_inner(self) -> R {
        self.source.reader
    }

    /// The entries of a directory from its bytes, which took this many sectors.
    fn listed(&self, bytes: &[u8], sectors: u64) -> Answered<Vec<DirEntry>> {
        let refused = |why| Refused { why, sectors };
        // A name of 8 bits a letter may have twice as many bytes as recorded, so a listing is at most twice as long as its directory.
        let mut out = Vec::new();
        out.try_reserve_exact(2 * bytes.len()).map_err(|_| refused(Refusal::NoRoom))?;
        calls::list_bytes(self.volume, bytes, &mut out).map_err(|refusal| refused(refusal.why))?;
        Ok(Answer { value: entries(&out).ok_or(refused(Refusal::NoRoom))?, sectors })
    }
}

impl<R: Read + Seek> CountedDrive<R> {
    /// From a volume that is already known.
    pub(crate) fn over(reader: R, volume: Volume) -> CountedDrive<R> {
        CountedDrive { source: Source::new(reader), volume, trail: Trail::default() }
    }

    /// Where and why the last call was refused; `refused` is what it returned. Call it before any other call on the
    /// drive. It asks the reader again for the sectors that it looks at.
    pub fn diagnose(&mut self, refused: &Refused) -> Diagnosis {
        if !is_of_the_disc(refused.why) {
            return Diagnosis::bare(*refused);
        }
        let mut diagnosis = Diagnosis::at(*refused, self.trail.last, &mut self.source);
        diagnosis.cause = self.trail.icb.and_then(|icb| of_call(&mut self.source, self.volume.mount, icb, refused.why));
        diagnosis
    }

    /// Repeats a call on an image, and returns its refusal.
    pub(crate) fn replay(&mut self, asked: Asked) -> Option<Refusal> {
        match asked {
            Asked::Lookup(path, matching) => self.lookup_as(path, matching).err().map(Refusal::from),
            Asked::ReadPath(path, matching) => match self.lookup_as(path, matching) {
                Ok(icb) => self.passed(icb.value),
                Err(refused) => Some(refused.why),
            },
            Asked::ReadDirectory(icb) => self.read_directory(icb).err().map(Refusal::from),
            Asked::ReadFile(icb) => self.passed(icb),
            Asked::Show(levels) => self.walked(levels),
        }
    }

    /// Reads a file and discards its bytes, continuing the trail.
    fn passed(&mut self, icb: LongAd) -> Option<Refusal> {
        match self.copied(icb, &mut io::sink()) {
            Err(Uncopied::Refused { refused, .. }) => Some(refused.why),
            _ => None,
        }
    }

    /// Visits the directories of a show, in its order, up to where it was refused.
    fn walked(&mut self, levels: u32) -> Option<Refusal> {
        self.trail = Trail::default();
        if !(1..=16).contains(&levels) {
            return Some(Refusal::TooDeep);
        }
        let mut pending = match self.read_directory(self.root_directory_icb()) {
            Ok(entries) => vec![entries.value.into_iter()],
            Err(refused) => return Some(refused.why),
        };
        while let Some(entries) = pending.last_mut() {
            match entries.find(|entry| entry.is_directory) {
                None => drop(pending.pop()),
                Some(_) if pending.len() == levels as usize => return Some(Refusal::TooDeep),
                Some(entry) => match self.read_directory(entry.icb) {
                    Ok(entries) => pending.push(entries.value.into_iter()),
                    Err(refused) => return Some(refused.why),
                },
            }
        }
        None
    }

    /// Opens the volume of a disc, as [`Counted::open`](crate::Counted::open) does.
    ///
    /// # Errors
    ///
    /// An `Unopened`, which holds the reader. Refusal 1 if a sector can't be read, 2 if a descriptor is invalid, 3 if a
    /// descriptor is missing, 4 if the volume is not supported.
    pub fn open(reader: R) -> std::result::Result<Answer<CountedDrive<R>>, Unopened<R>> {
        let (mut source, mut opening) = (Source::new(reader), calls::opening_start());
        while let Some(wanted) = calls::opening_wants(&opening) {
            // One at a time: what is in a sector of the sequence says whether the next one is wanted.
            source.fetch(wanted, 1);
            opening = calls::opening_step(opening, source.take(wanted));
        }
        match calls::opening_ended(&opening) {
            Ok(opened) => Ok(opened.map(|volume| CountedDrive { source, volume, trail: Trail::default() })),
            Err(refused) => Err(Unopened { refused, missed: source.missed, reader: source.reader }),
        }
    }

    /// The ICB that a path names, as [`Counted::lookup`](crate::Counted::lookup) finds it.
    ///
    /// # Errors
    ///
    /// Refusal 3 if a name on the path does not exist; and the refusals of a listing for each directory on the way.
    pub fn lookup(&mut self, path: impl AsRef<[u8]>) -> Answered<LongAd> {
        self.lookup_as(path, Matching::CaseIgnored)
    }

    /// The same with a choice of matching.
    ///
    /// # Errors
    ///
    /// Refusal 3 if a name on the path does not exist, 9 if it is ambiguous; and the refusals of a listing for each
    /// directory on the way.
    pub fn lookup_as(&mut self, path: impl AsRef<[u8]>, matching: Matching) -> Answered<LongAd> {
        let Walked { came, sectors, .. } = self.walk(path.as_ref(), matching);
        came.map(|value| Answer { value, sectors }).map_err(|why| Refused { why, sectors })
    }

    /// The component at which [`CountedDrive::lookup`] finds nothing, as a part of the path; `None` if the path exists.
    ///
    /// # Errors
    ///
    /// The refusals of the lookup, except 3.
    pub fn failed<'p>(&mut self, path: &'p (impl AsRef<[u8]> + ?Sized)) -> Answered<Option<&'p [u8]>> {
        self.failed_as(path, Matching::CaseIgnored)
    }

    /// The same for [`CountedDrive::lookup_as`]. An ambiguous component is not one at which nothing is found: the call
    /// is then refused as the lookup is.
    ///
    /// # Errors
    ///
    /// The refusals of the lookup, except 3.
    pub fn failed_as<'p>(&mut self, path: &'p (impl AsRef<[u8]> + ?Sized), matching: Matching) -> Answered<Option<&'p [u8]>> {
        let Walked { came, lost, sectors } = self.walk(path.as_ref(), matching);
        match came {
            Err(why) if lost.is_none() => Err(Refused { why, sectors }),
            _ => Ok(Answer { value: lost, sectors }),
        }
    }

    /// The entries of a directory in the order of the disc, without deleted entries and the parent.
    ///
    /// # Errors
    ///
    /// Refusal 1 if a sector can't be read, 2 if a descriptor or a name is invalid, 4 if the directory is not
    /// supported; 5 or 6 if there is not enough memory.
    pub fn read_directory(&mut self, icb: impl Into<LongAd>) -> Answered<Vec<DirEntry>> {
        self.trail = Trail::default();
        let read = self.directory(icb.into())?;
        self.listed(&read, read.sectors)
    }

    /// The bytes of a file, or of a directory itself.
    ///
    /// # Errors
    ///
    /// Refusal 1 if a sector can't be read, 2 if a descriptor is invalid, 4 if the file is not supported; 5 if there is
    /// not enough memory for its bytes.
    pub fn read_file(&mut self, icb: impl Into<LongAd>) -> Answered<Vec<u8>> {
        self.trail = Trail::default();
        self.file(icb.into())
    }

    /// The same, continuing the trail.
    fn file(&mut self, icb: LongAd) -> Answered<Vec<u8>> {
        let (mut most, mut known) = (SOME_FILE, false);
        let mut read = self.whole(icb, |source, needed| {
            // Only a file whose extents overlap has more bytes than its disc. The end is sought where it matters.
            if needed > most && !known {
                let length = source.length().map_or(usize::MAX, |length| usize::try_from(length).unwrap_or(usize::MAX));
                (most, known) = (length.max(SOME_FILE), true);
            }
            most
        })?;
        read.shrink_to_fit();
        Ok(read)
    }

    /// Looks a path up and reads what it names. The count covers both.
    ///
    /// # Errors
    ///
    /// The refusals of the lookup, then those of the read.
    pub fn read_path(&mut self, path: impl AsRef<[u8]>) -> Answered<Vec<u8>> {
        self.read_path_as(path, Matching::CaseIgnored)
    }

    /// The same with a choice of matching.
    ///
    /// # Errors
    ///
    /// The refusals of the lookup, then those of the read.
    pub fn read_path_as(&mut self, path: impl AsRef<[u8]>, matching: Matching) -> Answered<Vec<u8>> {
        let icb = self.lookup_as(path, matching)?;
        let both = |sectors: u64| sectors.saturating_add(icb.sectors);
        match self.file(icb.value) {
            Ok(read) => Ok(Answer { sectors: both(read.sectors), ..read }),
            Err(refused) => Err(Refused { sectors: both(refused.sectors), ..refused }),
        }
    }

    /// Writes a file's bytes to a writer as they arrive, and returns their number. Use it for a file that doesn't fit
    /// in memory.
    ///
    /// Bytes that arrived before a refusal are written. Only the file's descriptors bound the length: a malicious disc
    /// may give more bytes than it has. To stop, let the writer fail.
    ///
    /// # Errors
    ///
    /// An `Uncopied`: the read was refused, with the number of bytes written so far, or the writer failed.
    pub fn copy_file(&mut self, icb: impl Into<LongAd>, to: &mut impl Write) -> std::result::Result<Answer<u64>, Uncopied> {
        self.trail = Trail::default();
        self.copied(icb.into(), to)
    }

    /// The same, continuing the trail.
    fn copied(&mut self, icb: LongAd, to: &mut impl Write) -> std::result::Result<Answer<u64>, Uncopied> {
        let (mut window, mut written) = (Vec::with_capacity(WINDOW), 0);
        let mut write = |window: &mut Vec<u8>| {
            written += window.len() as u64;
            to.write_all(window).map(|()| window.clear())
        };
        // A read goes on in an empty window as it would behind what was there: where its bytes go depends on the room alone.
        let reading = self.read(icb, &mut window, |_, window, more| {
            if window.capacity() - window.len() < more {
                write(window)?;
            }
            Ok(usize::MAX)
        });
        let read = reading.and_then(|reading| write(&mut window).map(|()| reading)).map_err(Uncopied::Output)?;
        match calls::reading_ended(&read) {
            Ok(answer) => Ok(answer.map(|()| written)),
            Err(refused) => Err(Uncopied::Refused { refused, written }),
        }
    }

    /// A directory's bytes. A directory that is too long is refused with 6.
    fn directory(&mut self, icb: LongAd) -> Answered<Vec<u8>> {
        self.whole(icb, |_, _| MOST_DIRECTORY).map_err(|refused| match refused.why {
            Refusal::NoRoom => Refused { why: Refusal::NoWork, ..refused },
            _ => refused,
        })
    }

    /// A file's bytes in memory; `most` gives the largest number allowed, once that many are asked for.
    fn whole(&mut self, icb: LongAd, mut most: impl FnMut(&mut Source<R>, usize) -> usize) -> Answered<Vec<u8>> {
        let mut out = Vec::new();
        let Ok(reading) = self.read::<Infallible>(icb, &mut out, |source, out, more| {
            let most = most(source, out.len().saturating_add(more));
            // Where there is no memory the read itself refuses.
            let _ = out.try_reserve(more.min(most.saturating_sub(out.len())));
            Ok(most)
        });
        Ok(calls::reading_ended(&reading)?.map(|()| out))
    }

    /// Reads to the end. Before sectors are asked for, `lend` makes room in `out` for that many bytes, and returns how
    /// many of it may be lent at most.
    fn read<E>(
        &mut self,
        icb: LongAd,
        out: &mut Vec<u8>,
        mut lend: impl FnMut(&mut Source<R>, &mut Vec<u8>, usize) -> std::result::Result<usize, E>,
    ) -> std::result::Result<Reading, E> {
        let (source, trail, mut row, mut most) = (&mut self.source, &mut self.trail, Row::new(), 0);
        source.begin();
        trail.icb = Some(icb);
        let mut reading = calls::reading_start(self.volume, icb, &mut row);
        while let Some(wanted) = calls::reading_wants(&reading) {
            if !source.is_full() {
                let sectors = run(&reading).min(TOGETHER);
                most = lend(source, out, sectors as usize * SECTOR)?;
                // The first byte that has no room ends the read, and nothing is asked for behind its sector.
                let room = out.capacity().min(most).saturating_sub(out.len());
                source.fetch(wanted, sectors.min((room / SECTOR) as u64 + 1));
            }
            lengthen(&mut row, reading.scan.listed);
            trail.last = Some((wanted, Sought::of_reading(reading.phase)));
            reading = calls::reading_step(reading, source.take(wanted), &mut row, out, most);
        }
        Ok(reading)
    }

    /// Walks a path from the root.
    fn walk<'p>(&mut self, path: &'p [u8], matching: Matching) -> Walked<'p> {
        let (mut at, mut sectors) = ((self.root_directory_icb(), true), 0u64);
        let (mut rest, ended) = (0, |came, lost, sectors| Walked { came, lost, sectors });
        self.source.begin();
        self.trail = Trail::default();
        while let Some((component, end)) = calls::next_component(path, rest) {
            let (icb, is_directory) = at;
            if !is_directory {
                return ended(Err(Refusal::NotBluray), Some(component), sectors);
            }
            let read = self.directory(icb);
            sectors = sectors.saturating_add(read.as_ref().map_or_else(|refused| refused.sectors, |read| read.sectors));
            let found = read.map_err(Refusal::from).and_then(|bytes| calls::find(self.volume, &bytes, component, matching));
            at = match found {
                Ok(Some(entry)) => entry,
                Ok(None) => return ended(Err(Refusal::NotBluray), Some(component), sectors),
                Err(why) => return ended(Err(why), None, sectors),
            };
            rest = end;
        }
        ended(Ok(at.0), None, sectors)
    }
}

/// The result of walking a path, and the component for which nothing was found.
struct Walked<'p> {
    came: std::result::Result<LongAd, Refusal>,
    lost: Option<&'p [u8]>,
    sectors: u64,
}

/// How many sectors from the wanted one on are needed, whatever they hold: those of a continuation, or those of an
/// extent up to the information length. If none of it is missing, an extent's first sector is needed all the same.
fn run(reading: &Reading) -> u64 {
    let all = u64::from(reading.left) + 1;
    match reading.phase {
        1 | 2 => all,
        3 => all.min(reading.missing.div_ceil(SECTOR_SIZE).max(1)),
        _ => 1,
    }
}

/// Makes a row with this many places in use long enough for the next sector. If there is no memory, the read itself
/// refuses.
fn lengthen(row: &mut Row, listed: usize) {
    let places = listed.saturating_add(MOST_EXTENTS);
    if row.len() < places && row.try_reserve(places - row.len()).is_ok() {
        row.resize(places, Extent { length: 0, extent_type: 0, block: 0, partition: 0 });
    }
}

/// A file identifier (ECMA-167 4/14.4) with a recorded name, to get the name as UTF-8 from its listing.
fn identifier(name: &[u8]) -> Vec<u8> {
    let mut whole = vec![0; 38];
    // Its tag: the id, and the checksum of that; a body of no bytes has a CRC of 0.
    whole[..5].copy_from_slice(&[1, 1, 0, 0, 2]);
    whole[19] = name.len() as u8;
    whole.extend_from_slice(name);
    whole
}

/// A disc that could not be opened: the reason, and its reader.
pub struct Unopened<R> {
    /// The refusal, with the number of sectors that were asked for.
    pub refused: Refused,
    /// The sector that the reader could not read, if it was refused with 1.
    pub missed: Option<Missed>,
    /// The reader.
    pub reader: R,
}

impl<R> fmt::Debug for Unopened<R> {
    fn fmt(&self, f: &mut fmt::Formatter<'_>) -> fmt::Result {
        f.debug_struct("Unopened").field("refused", &self.refused).field("missed", &self.missed).finish_non_exhaustive()
    }
}

impl<R> fmt::Display for Unopened<R> {
    fn fmt(&self, f: &mut fmt::Formatter<'_>) -> fmt::Result {
        match &self.missed {
            Some(missed) => missed.fmt(f),
            None => self.refused.fmt(f),
        }
    }
}

impl<R> error::Error for Unopened<R> {}

impl<R: Read + Seek> Unopened<R> {
    /// Where and why it was refused. This asks the reader again for the sectors that it looks at.
    pub fn diagnose(&mut self) -> Diagnosis {
        opening(&mut Source::new(&mut self.reader), How::default(), self.refused)
    }
}

impl<R> From<Unopened<R>> for Refused {
    fn from(unopened: Unopened<R>) -> Refused {
        unopened.refused
    }
}

/// Why a file was not copied completely.
#[derive(Debug)]
pub enum Uncopied {
    /// The read was refused. The bytes that had arrived are written.
    Refused {
        /// The refusal, with the number of sectors that were asked for.
        refused: Refused,
        /// The number of bytes written.
        written: u64,
    },
    /// The writer failed.
    Output(io::Error),
}

impl fmt::Display for Uncopied {
    fn fmt(&self, f: &mut fmt::Formatter<'_>) -> fmt::Result {
        match self {
            Uncopied::Refused { refused, .. } => refused.fmt(f),
            Uncopied::Output(error) => write!(f, "can't write the bytes: {error}"),
        }
    }
}

impl error::Error for Uncopied {
    fn source(&self) -> Option<&(dyn error::Error + 'static)> {
        match self {
            Uncopied::Refused { refused, .. } => Some(refused),
            Uncopied::Output(error) => Some(error),
        }
    }
}
