//! An opened disc, and what a path on it gives.

use crate::failure::{Failure, NO_IMAGE, USAGE};
use crate::log::{self, Log};
use crate::map::copied;
use crate::maps;
use crate::names::shown;
use crate::records::{self, FileEntry};
use crate::runs::{self, Span};
use crate::steps::{Rule, Step, names, quoted, spelled};
use crate::walk::sector;
use crate::wanted::Wanted;
use std::fs::File;
use std::io::{self, Write};
use std::os::unix::fs::FileExt;
use strandlodge::{
    Answer, Asked, Counted, CountedDrive, Diagnosis, DirEntry, How, LongAd, Matching, Refusal, Refused, SECTOR_SIZE, Uncopied,
};

/// What is said of a descriptor that was taken all the same.
const RUINED: &str = "fails its CRC check and was used anyway (--checked refuses it; `vault check` lists all such descriptors)";

/// The file type of a directory's entry (ECMA-167 4/14.6.6).
const DIRECTORY: u8 = 4;

/// What a path is walked on: an image in memory, or a drive.
pub trait Volume {
    fn root_directory_icb(&self) -> LongAd;
    fn lookup_as(&mut self, path: &[u8], matching: Matching) -> strandlodge::Answered<LongAd>;
    fn failed_as<'p>(&mut self, path: &'p [u8], matching: Matching) -> strandlodge::Answered<Option<&'p [u8]>>;
    fn read_directory(&mut self, icb: LongAd) -> strandlodge::Answered<Vec<DirEntry>>;
    /// A file's bytes, to a writer.
    fn copy_file(&mut self, icb: LongAd, to: &mut impl Write) -> Result<Answer<u64>, Uncopied>;
    /// Where the entry of an ICB stands, whatever reference leads there.
    fn icb_sector(&self, icb: LongAd) -> Option<u64>;
    /// The entry of an ICB, looked at beside the calls; none where there is none.
    fn entry(&mut self, icb: LongAd) -> Option<FileEntry>;
    /// The front of a file, looked at beside the calls: of what isn't embedded up to a sector or more.
    fn front(&mut self, icb: LongAd) -> Vec<u8>;
    /// How many bytes a read gives, and in how many extents they stand; none on a drive, of which no call tells.
    fn measure(&self, icb: LongAd) -> Option<strandlodge::Answered<u64>>;
    fn extent_count(&self, icb: LongAd) -> Option<strandlodge::Answered<u64>>;
    /// The sectors that a copy of a file asks for; on a drive, as its entry says how long it is.
    fn reads(&mut self, icb: LongAd) -> u64;
    /// Of the last call, which sector couldn't be had, where more is known of it than that it isn't there.
    fn missed(&self) -> Option<String>;
    /// Where the last call was refused, and why.
    fn diagnose(&mut self, asked: Asked, refused: &Refused) -> Diagnosis;
    /// The volume by its descriptors of the highest number, where that is another.
    fn by_highest(&self) -> Option<Self>
    where
        Self: Sized;
}

impl Volume for Counted<'_> {
    fn root_directory_icb(&self) -> LongAd {
        Counted::root_directory_icb(self)
    }

    fn lookup_as(&mut self, path: &[u8], matching: Matching) -> strandlodge::Answered<LongAd> {
        Counted::lookup_as(self, path, matching)
    }

    fn failed_as<'p>(&mut self, path: &'p [u8], matching: Matching) -> strandlodge::Answered<Option<&'p [u8]>> {
        Counted::failed_as(self, path, matching)
    }

    fn read_directory(&mut self, icb: LongAd) -> strandlodge::Answered<Vec<DirEntry>> {
        Counted::read_directory(self, icb)
    }

    fn copy_file(&mut self, icb: LongAd, to: &mut impl Write) -> Result<Answer<u64>, Uncopied> {
        let found = runs::wanted(self, icb, Span::default()).map_err(|refused| Uncopied::Refused { refused, written: 0 })?;
        let (length, sectors) = (found.len(), found.sectors);
        runs::write(found.value, to).map_err(Uncopied::Output)?;
        Ok(Answer { value: length, sectors })
    }

    fn icb_sector(&self, icb: LongAd) -> Option<u64> {
        Counted::icb_sector(self, icb)
    }

    fn entry(&mut self, icb: LongAd) -> Option<FileEntry> {
        records::file_entry(sector(self.image(), self.icb_sector(icb)?)?)
    }

    fn front(&mut self, icb: LongAd) -> Vec<u8> {
        let embedded = self.part(icb).map_or(&[][..], |part| part.value);
        let extents = self.extents(icb).map_or(Vec::new(), |extents| extents.value);
        let first = extents.first().and_then(|extent| sector(self.image(), self.extent_sector(icb, extent)?));
        copied(first.unwrap_or(embedded))
    }

    fn measure(&self, icb: LongAd) -> Option<strandlodge::Answered<u64>> {
        Some(Counted::measure(self, icb))
    }

    fn extent_count(&self, icb: LongAd) -> Option<strandlodge::Answered<u64>> {
        Some(self.extents(icb).map(|extents| extents.map(|extents| extents.len() as u64)))
    }

    /// One that is too long isn't copied.
    fn reads(&mut self, icb: LongAd) -> u64 {
        match runs::wanted(self, icb, Span::default()) {
            Err(refused) if refused.why == Refusal::NoRoom => 0,
            answer => log::sectors(&answer),
        }
    }

    fn missed(&self) -> Option<String> {
        None
    }

    fn diagnose(&mut self, asked: Asked, refused: &Refused) -> Diagnosis {
        Counted::diagnose(self, asked, refused)
    }

    fn by_highest(&self) -> Option<Self> {
        let highest = Counted::open_as(self.image(), How { highest: true, ..self.how() }).ok()?.value;
        let led = |volume: &Counted| (volume.partition_start_sector(), volume.root_directory_icb());
        (led(self) != led(&highest)).then_some(highest)
    }
}

impl Volume for CountedDrive<File> {
    fn root_directory_icb(&self) -> LongAd {
        CountedDrive::root_directory_icb(self)
    }

    fn lookup_as(&mut self, path: &[u8], matching: Matching) -> strandlodge::Answered<LongAd> {
        CountedDrive::lookup_as(self, path, matching)
    }

    fn failed_as<'p>(&mut self, path: &'p [u8], matching: Matching) -> strandlodge::Answered<Option<&'p [u8]>> {
        CountedDrive::failed_as(self, path, matching)
    }

    fn read_directory(&mut self, icb: LongAd) -> strandlodge::Answered<Vec<DirEntry>> {
        CountedDrive::read_directory(self, icb)
    }

    fn copy_file(&mut self, icb: LongAd, to: &mut impl Write) -> Result<Answer<u64>, Uncopied> {
        CountedDrive::copy_file(self, icb, to)
    }

    fn icb_sector(&self, icb: LongAd) -> Option<u64> {
        Some(self.partition_start_sector() + u64::from(icb.location.block))
    }

    fn entry(&mut self, icb: LongAd) -> Option<FileEntry> {
        let mut bytes = [0; SECTOR_SIZE as usize];
        self.get_ref().read_exact_at(&mut bytes, self.icb_sector(icb)? * SECTOR_SIZE).ok()?;
        records::file_entry(&bytes)
    }

    fn front(&mut self, icb: LongAd) -> Vec<u8> {
        let mut front = Front(Vec::new());
        // It takes the first bytes that come, and no more.
        let _ = CountedDrive::copy_file(self, icb, &mut front);
        front.0
    }

    fn measure(&self, _: LongAd) -> Option<strandlodge::Answered<u64>> {
        None
    }

    fn extent_count(&self, _: LongAd) -> Option<strandlodge::Answered<u64>> {
        None
    }

    fn reads(&mut self, icb: LongAd) -> u64 {
        self.entry(icb).map_or(1, |entry| 1 + entry.information_length.div_ceil(SECTOR_SIZE))
    }

    fn missed(&self) -> Option<String> {
        CountedDrive::missed(self).map(ToString::to_string)
    }

    /// A drive knows what it was asked.
    fn diagnose(&mut self, _: Asked, refused: &Refused) -> Diagnosis {
        CountedDrive::diagnose(self, refused)
    }

    /// A drive has no such choice.
    fn by_highest(&self) -> Option<Self> {
        None
    }
}

/// A writer that takes what comes first.
struct Front(Vec<u8>);

impl Write for Front {
    fn write(&mut self, bytes: &[u8]) -> io::Result<usize> {
        if self.0.is_empty() {
            self.0.extend_from_slice(bytes);
            return Ok(bytes.len());
        }
        Err(io::ErrorKind::StorageFull.into())
    }

    fn flush(&mut self) -> io::Result<()> {
        Ok(())
    }
}

/// An opened disc with the name that it goes by in messages, and how names on it are matched. Every call is counted.
pub struct OpenDisc<'l, V> {
    pub volume: V,
    pub log: &'l mut Log,
    pub name: &'l str,
    pub matching: Rule,
    /// How long the image or the drive is.
    pub bytes: u64,
    /// The same volume with bodies checked, to say where a call that was answered would be refused by 10; none where it is checked anyway, or isn't looked at.
    pub checked: Option<V>,
}

/// What a path gives.
pub struct Found {
    pub icb: LongAd,
    /// As its directory lists it; the root has none, nor has what was asked for by its place.
    pub entry: Option<DirEntry>,
    pub is_directory: bool,
}

impl<'a, 'l> OpenDisc<'l, Counted<'a>> {
    pub fn open(image: &'a [u8], how: How, name: &'l str, matching: Rule, log: &'l mut Log) -> Result<Self, Failure> {
        let volume = log.count("open", Counted::open_as(image, how)).map_err(|refused| maps::refused(image, how, name, refused))?;
        Ok(OpenDisc { volume, log, name, matching, bytes: image.len() as u64, checked: None })
    }

    /// The same, for who takes a file: a descriptor with a wrong body on the way to it is said, though it is taken as it stands. What is looked at for that
    /// isn't counted.
    pub fn watch(mut self) -> Self {
        let how = self.volume.how();
        if !how.checked {
            match Counted::open_as(self.volume.image(), How { checked: true, ..how }) {
                Ok(checked) => self.checked = Some(checked.value),
                Err(refused) if refused.why == Refusal::BadCrc => {
                    self.log.ruin(format!("{}: a descriptor of the volume {RUINED}", self.name))
                }
                Err(_) => {}
            }
        }
        self
    }

    /// The volume's name. Opening is gone over again for it.
    pub fn label(&mut self) -> Result<String, Failure> {
        let (image, how) = (self.volume.image(), self.volume.how());
        self.log.count("label", self.volume.label()).map_err(|refused| maps::refused(image, how, self.name, refused))
    }

    pub fn read(&mut self, path: &[u8], icb: LongAd) -> Result<Vec<u8>, Failure> {
        self.count(path, Asked::ReadFile(icb), "read_file", self.volume.read_file(icb))
    }
}

impl<V: Volume> OpenDisc<'_, V> {
    /// Notes the count of a call on what a path gave, and gives its value.
    pub fn count<T>(&mut self, path: &[u8], asked: Asked, call: &'static str, answer: strandlodge::Answered<T>) -> Result<T, Failure> {
        self.log.count(call, answer).map_err(|refused| self.refused(path, asked, refused))
    }

    /// The last call, which was asked for what a path gave, was refused.
    pub fn refused(&mut self, path: &[u8], asked: Asked, refused: Refused) -> Failure {
        let about = format!("{}: {}", self.name, quoted(path));
        match self.volume.missed().filter(|_| refused.why == Refusal::Io) {
            Some(missed) => Failure::with_number(refused, format!("{about}: {missed}")),
            None => {
                let diagnosis = self.volume.diagnose(asked, &refused);
                self.with_cure(asked, Failure::diagnosed(about, &diagnosis))
            }
        }
    }

    /// With what to try where a disc was closed again, and an older descriptor leads elsewhere.
    fn with_cure(&self, asked: Asked, mut failure: Failure) -> Failure {
        let is_there = self.volume.by_highest().is_some_and(|mut highest| match asked {
            Asked::Lookup(path, matching) | Asked::ReadPath(path, matching) => highest.lookup_as(path, matching).is_ok(),
            Asked::ReadDirectory(icb) => highest.read_directory(icb).is_ok(),
            Asked::ReadFile(icb) => highest.measure(icb).is_some_and(|measured| measured.is_ok()),
            Asked::Show(_) => false,
        });
        if let Some(says) = failure.says.as_mut().filter(|_| is_there) {
            *says += "; the disc was closed again later: --highest finds it";
        }
        failure
    }

    pub fn list(&mut self, path: &[u8], icb: LongAd) -> Result<Vec<DirEntry>, Failure> {
        let listed = self.volume.read_directory(icb);
        self.count(path, Asked::ReadDirectory(icb), "read_directory", listed)
    }

    /// Whether an entry is a directory's: by its type, or where that says something else, as on some discs, since it begins as a directory does.
    fn is_directory(&mut self, icb: LongAd) -> bool {
        let Some(entry) = self.volume.entry(icb) else {
            return false;
        };
        entry.icb_tag.file_type == DIRECTORY || records::file_identifier(&self.volume.front(icb)).is_some()
    }

    /// Says so where a call that was answered is refused by 10 with bodies checked; of a path once.
    fn see_bodies<T>(&mut self, path: &[u8], what: &str, ask: impl FnOnce(&mut V) -> Option<strandlodge::Answered<T>>) {
        let refused = self.checked.as_mut().and_then(ask).and_then(Result::err);
        if refused.is_some_and(|refused| refused.why == Refusal::BadCrc) {
            self.log.ruin(format!("{}: {}: a descriptor {what} {RUINED}", self.name, quoted(path)));
        }
    }

    /// A file that was read.
    pub fn see_file(&mut self, path: &[u8], icb: LongAd) {
        self.see_bodies(path, "on the way to it", |checked| checked.measure(icb));
    }

    /// A directory that was listed.
    pub fn see_directory(&mut self, path: &[u8], icb: LongAd) {
        self.see_bodies(path, "of this directory", |checked| Some(checked.read_directory(icb)));
    }

    /// What is asked for. A place is that of an entry, or the call that reads it refuses it.
    pub fn find(&mut self, wanted: &Wanted) -> Result<Found, Failure> {
        match wanted {
            Wanted::Path(path) => self.find_path(path),
            Wanted::Icb(icb) => {
                let icb = icb.long_ad();
                Ok(Found { icb, entry: None, is_directory: self.is_directory(icb) })
            }
        }
    }

    /// The same, for what is listed. The bytes of a file may be those of an empty listing, and then nothing would be said.
    pub fn find_listed(&mut self, wanted: &Wanted) -> Result<Found, Failure> {
        let found = self.find(wanted)?;
        if matches!(wanted, Wanted::Icb(_)) && !found.is_directory && self.volume.entry(found.icb).is_some() {
            let says = "is a file, and an ICB has no name to list: use `vault stat` or `vault cat`";
            return Err(Failure::new(USAGE, format!("{}: {} {says}", self.name, quoted(&wanted.text()))));
        }
        Ok(found)
    }

    /// Looks a path up, and then walks it over the directories' listings: for the entry that it gives, and for what has to be remarked of each
    /// name. Both go by one rule, so they give the same entry of an image that stands still.
    pub fn find_path(&mut self, path: &[u8]) -> Result<Found, Failure> {
        let call = self.matching.call();
        let found = self.volume.lookup_as(path, call);
        let (icb, steps) = match self.log.count("lookup", found) {
            Err(refused) if self.matching == Rule::Safe && refused.why == Refusal::NotBluray => self.find_spelled(path, refused)?,
            found => (found.map_err(|refused| self.lost(path, path, refused))?, self.steps(path)?),
        };
        let written = spelled(path, &steps, self.matching);
        self.see_bodies(path, "on the way to it", |checked| Some(checked.lookup_as(&written, call)));
        let Some(last) = steps.last() else {
            return Ok(Found { icb, entry: None, is_directory: true });
        };
        let entry = last.taken(self.matching).filter(|entry| entry.icb == icb && names(path).count() == steps.len());
        let Some(entry) = entry.cloned() else {
            let says = format!("{}: {} changed while it was being read: use --copy", self.name, quoted(path));
            return Err(Failure::new(NO_IMAGE, says));
        };
        self.log.remarks.extend(steps.iter().filter_map(|step| step.remark(self.matching)));
        Ok(Found { icb, is_directory: entry.is_directory, entry: Some(entry) })
    }

    /// A path of which not all names are written as the disc has them: it is walked, and then looked up as it is spelled there.
    fn find_spelled<'p>(&mut self, path: &'p [u8], refused: Refused) -> Result<(LongAd, Vec<Step<'p>>), Failure> {
        let steps = self.steps(path)?;
        if let Some(says) = steps.last().and_then(|step| step.ambiguity(self.matching)) {
            return Err(Failure::with_number(Refusal::Ambiguous, format!("{}: {says}", self.name)));
        }
        let written = spelled(path, &steps, self.matching);
        if written == path {
            return Err(self.lost(path, path, refused));
        }
        let found = self.volume.lookup_as(&written, self.matching.call());
        let icb = self.log.count("lookup", found).map_err(|refused| self.lost(path, &written, refused))?;
        Ok((icb, steps))
    }

    /// The same, for what must be a file.
    pub fn find_file(&mut self, wanted: &Wanted) -> Result<Found, Failure> {
        let found = self.find(wanted)?;
        if found.is_directory {
            let says = "is a directory: list it with `vault ls`, or copy all of it with `vault get -r`";
            return Err(Failure::new(USAGE, format!("{}: {} {says}", self.name, quoted(&wanted.text()))));
        }
        Ok(found)
    }

    /// The names of a path as far as they are there.
    fn steps<'p>(&mut self, path: &'p [u8]) -> Result<Vec<Step<'p>>, Failure> {
        let (mut directory, mut steps) = (Some(self.volume.root_directory_icb()), Vec::new());
        for (above, name) in names(path) {
            let Some(icb) = directory else { break };
            let step = Step::new((above, name), self.list(above, icb)?);
            directory = step.taken(self.matching).filter(|entry| entry.is_directory).map(|entry| entry.icb);
            steps.push(step);
        }
        Ok(steps)
    }

    /// A lookup that was refused: where nothing was found, with the name that isn't there, and where too much was, with the entries. These say all there is
    /// to say: no sector is at fault. `written` is the path as it was looked up.
    fn lost(&mut self, path: &[u8], written: &[u8], refused: Refused) -> Failure {
        let says = match refused.why {
            Refusal::NotBluray => self.not_there(path, written),
            Refusal::Ambiguous => self.steps(path).ok().and_then(|steps| steps.last()?.ambiguity(self.matching)),
            _ => return self.refused(path, Asked::Lookup(written, self.matching.call()), refused),
        };
        let says = says.unwrap_or_else(|| format!("{}: {refused}", quoted(path)));
        self.with_cure(Asked::Lookup(written, self.matching.call()), Failure::with_number(refused, format!("{}: {says}", self.name)))
    }

    /// Which name isn't there, and what is in another case where that was not enough.
    fn not_there(&mut self, path: &[u8], written: &[u8]) -> Option<String> {
        let failed = self.volume.failed_as(written, self.matching.call());
        let component = self.log.count("failed", failed).ok()??;
        // The component is a part of the path, so its place is the distance of the two. What is said is the path as it was typed.
        let at = component.as_ptr().addr() - written.as_ptr().addr();
        let (above, component) = (path.get(..at)?, path.get(at..at + component.len())?);
        let mut says = format!("there is nothing named \"{}\" under {}", shown(component), quoted(above));
        if self.matching == Rule::Call(Matching::AsWritten)
            && let Some(alike) = self.steps(path).ok()?.last().filter(|step| step.above == above).and_then(Step::in_another_case)
        {
            says += &format!("; {alike}");
        }
        Some(says)
    }
}
