//! The calls of include/vault.h: what is asked, and what was answered.

use strandlodge_sys::asked;
use strandlodge_sys::icbs::{long_ad, recorded};
use strandlodge_sys::vault::{self as face, AS_WRITTEN, CASE_IGNORED, CHECKED, FIGURES, MAPS, UNLIMITED};

#[derive(Clone, Copy, PartialEq, Eq, Debug, PartialOrd, Ord)]
#[repr(u8)]
pub enum Call {
    Probe,
    Open,
    Label,
    Lookup,
    Failed,
    List,
    Read,
    Part,
    Extents,
    ReadPath,
    ReadAll,
    Show,
    Measure,
    Survey,
    Total,
}

use Call::*;

impl Call {
    pub const ALL: [Call; 15] =
        [Probe, Open, Label, Lookup, Failed, List, Read, Part, Extents, ReadPath, ReadAll, Show, Measure, Survey, Total];

    pub fn name(self) -> &'static str {
        match self {
            Survey => "survey",
            Total => "survey_total",
            // Up to these the stored queries have the same calls.
            call => asked::Call::ALL[call as usize].name(),
        }
    }

    pub fn has_work(self) -> bool {
        matches!(self, Call::Lookup | Call::Failed | Call::List | Call::ReadPath | Call::ReadAll | Call::Show | Call::Survey)
    }

    pub fn has_room(self) -> bool {
        matches!(self, Label | List | Read | Extents | ReadPath | ReadAll | Show | Survey | Total)
    }

    /// It says where in the image, or in the path, its answer stands.
    pub fn has_place(self) -> bool {
        matches!(self, Call::Failed | Call::Part)
    }

    /// It opens what it is asked about, as it is told.
    pub fn opens(self) -> bool {
        matches!(self, Call::Open | Call::Label | Call::Survey)
    }

    /// It is about a volume or an image, and not about numbers alone, and may be told to check or to go through maps.
    pub fn has_choices(self) -> bool {
        !matches!(self, Call::Probe | Call::Total)
    }

    /// It goes along a path, or a list of them.
    pub fn has_path(self) -> bool {
        matches!(self, Call::Lookup | Call::Failed | Call::ReadPath | Call::ReadAll)
    }
}

/// A long_ad.
#[derive(Clone, Copy, PartialEq, Eq, Debug, Default)]
pub struct Icb {
    pub length: u32,
    pub extent_type: u8,
    pub block: u32,
    pub partition: u16,
    pub implementation_use: [u8; 6],
}

impl Icb {
    /// The usual ICB: one block.
    pub fn at(block: u32, partition: u16) -> Icb {
        Icb { length: 2048, block, partition, ..Icb::default() }
    }

    /// From its recorded form.
    pub fn of(b: [u8; 16]) -> Icb {
        long_ad(&b).into()
    }

    pub fn recorded(&self) -> [u8; 16] {
        recorded(&(*self).into())
    }
}

impl From<face::LongAd> for Icb {
    fn from(l: face::LongAd) -> Icb {
        let face::LongAd { length, extent_type, location, implementation_use } = l;
        Icb { length, extent_type, block: location.block, partition: location.partition_ref, implementation_use }
    }
}

/// As it is lent.
impl From<Icb> for face::LongAd {
    fn from(i: Icb) -> face::LongAd {
        let Icb { length, extent_type, block, partition, implementation_use } = i;
        face::LongAd { length, extent_type, location: face::LbAddr { block, partition_ref: partition }, implementation_use }
    }
}

#[derive(Clone, Copy, PartialEq, Eq, Debug, Default)]
pub struct Volume {
    pub start: u32,
    pub partition: u16,
    /// Any number but 0: bodies are checked.
    pub checked: u32,
    /// Any number but 0: so many partition maps, of which there are four at most.
    pub maps: u32,
    pub volumes: [u16; 4],
    pub numbers: [u16; 4],
    pub starts: [u32; 4],
    pub root: Icb,
    pub label: [u8; 32],
}

impl From<face::Volume> for Volume {
    fn from(v: face::Volume) -> Volume {
        let face::Volume { mount, root, label } = v;
        let face::Mount { start, partition, checked, maps, volumes, numbers, starts } = mount;
        Volume { start, partition, checked, maps, volumes, numbers, starts, root: root.into(), label }
    }
}

/// As it is lent.
impl From<Volume> for face::Volume {
    fn from(v: Volume) -> face::Volume {
        let Volume { start, partition, checked, maps, volumes, numbers, starts, root, label } = v;
        face::Volume { mount: face::Mount { start, partition, checked, maps, volumes, numbers, starts }, root: root.into(), label }
    }
}

/// The choices of matching.
#[derive(Clone, Copy, PartialEq, Eq, Debug, PartialOrd, Ord)]
pub enum Choice {
    CaseIgnored,
    AsWritten,
    Unambiguous,
}

impl Choice {
    /// The one that a number is for: any beyond the three is for the last.
    pub fn of(matching: u32) -> Choice {
        match matching {
            CASE_IGNORED => Choice::CaseIgnored,
            AS_WRITTEN => Choice::AsWritten,
            _ => Choice::Unambiguous,
        }
    }

    pub fn name(self) -> &'static str {
        ["case ignored", "as written", "unambiguous"][self as usize]
    }
}

/// What is asked of an image. Room counts bytes, slots for the extent list, and numbers for figures.
#[derive(Clone, Debug)]
pub struct Query {
    pub call: Call,
    pub volume: Volume,
    pub icb: Icb,
    /// A path, or a list of them with a zero byte between each two.
    pub path: Vec<u8>,
    /// How names on the path are matched, as the interface has it: any number.
    pub matching: u32,
    pub room: usize,
    pub work: usize,
    /// The places of the rows of a list of paths: of the lengths, and of the answers. A survey has the first.
    pub places: [usize; 2],
    /// The choices, for the calls that open.
    pub how: u32,
    /// The levels of a show.
    pub levels: u32,
    /// How many sectors a show, or each image of a survey, is lent.
    pub most: u64,
    /// Of a survey the lengths of the images, which stand one behind another; of a total the row of figures as it comes.
    pub shelf: Vec<u64>,
    /// How many places a total is of.
    pub images: u64,
}

/// The numbers of a place of figures.
pub const PLACE: usize = FIGURES;

/// Memory to spare: more than any answer has.
pub const PLENTY: usize = usize::MAX;

impl Query {
    pub fn of(call: Call, volume: Volume) -> Query {
        let (icb, path, matching, most, shelf) = (Icb::default(), Vec::new(), CASE_IGNORED, UNLIMITED, Vec::new());
        Query { call, volume, icb, path, how: 0, matching, room: PLENTY, work: PLENTY, places: [0; 2], levels: 0, most, shelf, images: 0 }
    }

    pub fn on(call: Call, volume: Volume, icb: Icb) -> Query {
        Query { icb, ..Query::of(call, volume) }
    }

    pub fn along(call: Call, volume: Volume, path: &[u8]) -> Query {
        Query { path: path.to_vec(), ..Query::of(call, volume) }
    }

    /// A whole show.
    pub fn showing(volume: Volume, levels: u32) -> Query {
        Query { levels, ..Query::of(Call::Show, volume) }
    }

    /// A survey of images of these lengths.
    pub fn survey(how: u32, lengths: &[u64]) -> Query {
        Query { how, shelf: lengths.to_vec(), places: [lengths.len(), 0], ..Query::of(Call::Survey, Volume::default()) }
    }

    /// The total of the first places of a row of figures, which is lent as it is.
    pub fn total(row: Vec<u64>, images: u64) -> Query {
        Query { images, room: row.len(), work: 0, shelf: row, ..Query::of(Call::Total, Volume::default()) }
    }

    /// A list of paths, with a place in each row for every one.
    pub fn list(volume: Volume, paths: &[impl AsRef<[u8]>]) -> Query {
        let parts: Vec<&[u8]> = paths.iter().map(AsRef::as_ref).collect();
        let q = Query::along(Call::ReadAll, volume, &parts.join(&0));
        let n = q.items().count();
        Query { places: [n, n], ..q }
    }

    /// The paths of a list.
    pub fn items(&self) -> impl Iterator<Item = &[u8]> {
        self.path.split(|byte| *byte == 0)
    }

    /// A path of a list by itself, with the room that is left to it.
    pub fn item(&self, path: &[u8], room: usize) -> Query {
        Query { call: Call::ReadPath, path: path.to_vec(), room, places: [0; 2], ..self.clone() }
    }

    pub fn matched(self, matching: u32) -> Query {
        Query { matching, ..self }
    }

    /// The same with bodies checked.
    pub fn checked(&self) -> Query {
        Query { how: self.how | CHECKED, volume: Volume { checked: 1, ..self.volume }, ..self.clone() }
    }

    /// The same through four maps, each of which leads to the volume's own partition.
    pub fn mapped(&self) -> Query {
        let v = self.volume;
        let volume = Volume { maps: 4, volumes: [1; 4], numbers: [v.partition; 4], starts: [v.start; 4], ..v };
        Query { how: self.how | MAPS, volume, ..self.clone() }
    }

    /// Whether bodies are checked: a call that opens is told so, and the volume tells any other.
    pub fn is_checked(&self) -> bool {
        match self.call {
            call if !call.has_choices() => false,
            call if call.opens() => self.how & CHECKED != 0,
            _ => self.volume.checked != 0,
        }
    }

    /// Whether references are resolved through maps: in the same way.
    pub fn is_mapped(&self) -> bool {
        match self.call {
            call if !call.has_choices() => false,
            call if call.opens() => self.how & MAPS != 0,
            _ => self.volume.maps != 0,
        }
    }

    pub fn with(&self, room: usize, work: usize) -> Query {
        Query { room, work, ..self.clone() }
    }

    /// The same, lent so many sectors.
    pub fn lent(self, most: u64) -> Query {
        Query { most, ..self }
    }

    /// The bytes that are lent for its answer: a slot has 16, and a number 8.
    pub fn room_bytes(&self) -> usize {
        match self.call {
            Call::Extents => self.room * 16,
            Call::Survey | Call::Total => self.room * 8,
            call if call.has_room() => self.room,
            _ => 0,
        }
    }
}

/// The values of an answer. A call has zeros in those that it doesn't give.
#[derive(Clone, PartialEq, Eq, Debug, Default)]
pub struct Values {
    pub answer: u64,
    pub count: u64,
    pub length: u64,
    pub place: u64,
    pub volume: Volume,
    pub icb: Icb,
    /// The front of the lent output.
    pub written: Vec<u8>,
    /// The length and the answer of each path of a list.
    pub rows: Vec<(u64, u32)>,
}

/// What held of the lent memory: the guards of the output, its bytes behind the answer, the guards of the work space, the work space
/// all zero (or as it came, where the call has none), the guards of the rows, their places behind the answer.
pub const HELD: u8 = 63;

#[derive(Clone, Debug, Default)]
pub struct Given {
    pub values: Values,
    pub held: u8,
}

/// An extent as a slot has it.
pub fn slot(length: u32, extent_type: u8, block: u32, partition: Option<u16>) -> [u8; 16] {
    let mut b = [0; 16];
    b[0..4].copy_from_slice(&length.to_le_bytes());
    b[4] = extent_type;
    b[8..12].copy_from_slice(&block.to_le_bytes());
    b[12..16].copy_from_slice(&partition.map_or(65536, u32::from).to_le_bytes());
    b
}
