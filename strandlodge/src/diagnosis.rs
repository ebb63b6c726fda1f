//! The place and the cause of a refusal, worked out on demand by repeating the call.

use crate::answer::{Refusal, Refused};
use crate::cause::{Cause, of_opening};
use crate::how::How;
use crate::matching::Matching;
use crate::opening::Sequence;
use crate::records::LongAd;
use crate::source::{Copied, Source};
use crate::udf::DescriptorTag;
use std::io::{Read, Seek};
use std::{error, fmt};

/// The call that was refused.
#[derive(Debug, Clone, Copy, PartialEq, Eq)]
pub enum Asked<'p> {
    /// A lookup of a path, or of the component that failed.
    Lookup(&'p [u8], Matching),
    /// A read of a path, alone or as one of many.
    ReadPath(&'p [u8], Matching),
    /// A listing of a directory.
    ReadDirectory(LongAd),
    /// A read of a file; also its extents or its part of the image, which ask for the first of the same sectors.
    ReadFile(LongAd),
    /// A show of this many levels. Whatever its budget was, any refusal except 16 is at the same place as without a
    /// budget.
    Show(u32),
}

/// What a sector was needed for.
#[derive(Debug, Clone, Copy, PartialEq, Eq, Hash)]
pub enum Sought {
    /// The anchor, in sector 256.
    Anchor,
    /// A sector of the main volume descriptor sequence.
    VolumeDescriptor,
    /// The file set descriptor.
    FileSet,
    /// The entry of a file or a directory.
    Entry,
    /// A continuation of a file's descriptors.
    Continuation,
    /// The bytes of a file or a directory.
    Bytes,
}

impl Sought {
    /// From the phase of a read.
    pub(crate) fn of_reading(phase: u8) -> Sought {
        match phase {
            0 => Sought::Entry,
            1 | 2 => Sought::Continuation,
            _ => Sought::Bytes,
        }
    }
}

impl fmt::Display for Sought {
    fn fmt(&self, f: &mut fmt::Formatter<'_>) -> fmt::Result {
        f.write_str(match self {
            Sought::Anchor => "the anchor",
            Sought::VolumeDescriptor => "a volume descriptor",
            Sought::FileSet => "the file set descriptor",
            Sought::Entry => "a file entry",
            Sought::Continuation => "more of a file's descriptors",
            Sought::Bytes => "a file's bytes",
        })
    }
}

/// What is in a sector.
#[derive(Debug, Clone, Copy, PartialEq, Eq, Hash)]
pub enum Standing {
    /// It is not completely there, or can't be read.
    Missing,
    /// Nothing but zeros.
    Zeros,
    /// Bytes that do not start with a tag, as in most files.
    Untagged,
    /// A descriptor, or something that starts with its tag.
    Tagged(DescriptorTag),
}

impl Standing {
    fn of(bytes: Option<Vec<u8>>) -> Standing {
        match bytes {
            None => Standing::Missing,
            Some(bytes) if bytes.iter().all(|byte| *byte == 0) => Standing::Zeros,
            Some(bytes) => DescriptorTag::parse(&bytes).map_or(Standing::Untagged, Standing::Tagged),
        }
    }
}

impl fmt::Display for Standing {
    fn fmt(&self, f: &mut fmt::Formatter<'_>) -> fmt::Result {
        match self {
            Standing::Missing => f.write_str("it isn't there"),
            Standing::Zeros => f.write_str("it has no tag, only zeros"),
            Standing::Untagged => f.write_str("it has no tag"),
            Standing::Tagged(tag) => write!(f, "it has tag {} ({})", tag.id as u16, tag.id.name()),
        }
    }
}

/// The last sector that a refused call asked for.
#[derive(Debug, Clone, Copy, PartialEq, Eq, Hash)]
pub struct Place {
    /// The sector, counted from the start of the disc.
    pub sector: u64,
    /// What it was needed for.
    pub sought: Sought,
    /// What is there.
    pub standing: Standing,
}

impl fmt::Display for Place {
    fn fmt(&self, f: &mut fmt::Formatter<'_>) -> fmt::Result {
        let Place { sector, sought, standing } = self;
        write!(f, "the last sector asked for was {sector}, for {sought}: {standing}")
    }
}

/// A refusal with its place and, if known, its cause.
///
/// It is worked out on demand, by repeating the call one sector at a time; other calls cost nothing. `Display` prints
/// the cause, or the meaning of the number, and then the place.
///
/// ```
/// use strandlodge::{Asked, How, Matching, Disc, diagnose};
///
/// # fn main() -> Result<(), Box<dyn std::error::Error>> {
/// let image = strandlodge::write(&[("9", b"cue 9")])?;
/// let disc = Disc::open(&image)?;
/// let refused = disc.lookup("10").unwrap_err();
/// let why = disc.diagnose(Asked::Lookup(b"10", Matching::CaseIgnored), &refused);
/// println!("{why}: {:?}", why.place.map(|place| place.sector));
///
/// let refused = Disc::open(&image[..9000]).unwrap_err();
/// println!("{}", diagnose(&image[..9000], How::default(), &refused)); // sector 256 isn't there
/// # Ok(())
/// # }
/// ```
#[derive(Debug, Clone, PartialEq, Eq)]
pub struct Diagnosis {
    /// The refusal.
    pub refused: Refused,
    /// The last sector that was asked for. `None` if there was none, if memory or sectors were too few (5, 6, 7, 12 and
    /// 16), or if the image has changed since.
    pub place: Option<Place>,
    /// The cause: always given for refusal 4, and for others if it is known.
    pub cause: Option<Cause>,
}

impl Diagnosis {
    /// What is known without looking again.
    pub(crate) fn bare(refused: Refused) -> Diagnosis {
        Diagnosis { refused, place: None, cause: None }
    }

    /// Adds the last sector that was asked for, looked at again.
    pub(crate) fn at<R: Read + Seek>(refused: Refused, last: Option<(u64, Sought)>, source: &mut Source<R>) -> Diagnosis {
        let place = last.map(|(sector, sought)| Place { sector, sought, standing: Standing::of(source.look(sector)) });
        Diagnosis { place, ..Diagnosis::bare(refused) }
    }

    /// What was wrong, without the place: the cause, or the meaning of the number.
    pub fn what(&self) -> String {
        self.cause.as_ref().map_or_else(|| self.refused.to_string(), Cause::to_string)
    }
}

impl fmt::Display for Diagnosis {
    fn fmt(&self, f: &mut fmt::Formatter<'_>) -> fmt::Result {
        f.write_str(&self.what())?;
        self.place.map_or(Ok(()), |place| write!(f, "; {place}"))
    }
}

/// You can return it as an error. Its source is the meaning of the refusal's number.
impl error::Error for Diagnosis {
    fn source(&self) -> Option<&(dyn error::Error + 'static)> {
        Some(&self.refused)
    }
}

/// Whether a refusal is for what the disc holds, not for lack of memory or budget.
pub(crate) fn is_of_the_disc(why: Refusal) -> bool {
    use Refusal::{BadShelf, NoRoom, NoSlot, NoWork, OverBudget, TooMany, Unknown};
    !matches!(why, NoRoom | NoWork | NoSlot | TooMany | BadShelf | OverBudget | Unknown(_))
}

/// Where and why an opening was refused, by [`Disc::open_as`](crate::Disc::open_as) or
/// [`read_volume_label_as`](crate::read_volume_label_as) with these choices.
pub fn diagnose(image: &[u8], how: How, refused: &Refused) -> Diagnosis {
    opening(&mut Source::new(Copied::new(image)), how, *refused)
}

/// The same for a disc over a reader.
pub(crate) fn opening<R: Read + Seek>(source: &mut Source<R>, how: How, refused: Refused) -> Diagnosis {
    if !is_of_the_disc(refused.why) {
        return Diagnosis::bare(refused);
    }
    let sequence = Sequence::read(source);
    let last = sequence.asked(how, refused.sectors);
    let mut diagnosis = Diagnosis::at(refused, last, source);
    diagnosis.cause = of_opening(source, &sequence, how, &diagnosis);
    diagnosis
}
