//! The stored queries of the program `asker`: sparse images and the queries on each, read from a file and written to
//! one. docs/COMPARING.md describes the format. It is read strictly: a file that is cut short, or contains an invalid
//! number, is refused.

use crate::icbs::{long_ad, recorded};
use crate::sparse;
use crate::vault::{LbAddr, LongAd, Mount, UNLIMITED, Volume};
use std::fmt;

/// The files, in the order in which the program reads them.
pub const FILES: [&str; 12] =
    ["volumes", "files", "directories", "matchings", "checks", "maps", "growing", "stacks", "trees", "replayed", "combinations", "budgets"];

/// The longest image, in bytes.
pub const LONGEST: usize = 2 << 20;
/// The most bytes lent for the output, and for the work space.
pub const MOST_BYTES: u32 = 65_536;
/// The most places lent in a row.
pub const MOST_PLACES: u32 = 1024;
/// For a length: cut the image at every sector, and make each call on every cut.
pub const WATCHED: u32 = u32::MAX;
/// A volume's number below this is a choice of opening; from this on, it is the index of a volume made by hand.
pub const BY_HAND: u32 = 8;

/// The calls, by number.
#[allow(missing_docs)] // each is the call of its name
#[derive(Debug, Clone, Copy, PartialEq, Eq, PartialOrd, Ord)]
pub enum Call {
    Probe,
    Open,
    Label,
    Lookup,
    Failed,
    List,
    Read,
    Part,
    Extents,
    ReadPath,
    ReadAll,
    Show,
    Measure,
    Runs,
    FailedAt,
    PartAt,
}

use Call::*;

impl Call {
    /// Every call, in order of number.
    pub const ALL: [Call; 16] =
        [Probe, Open, Label, Lookup, Failed, List, Read, Part, Extents, ReadPath, ReadAll, Show, Measure, Runs, FailedAt, PartAt];

    /// The word at the start of its line.
    pub fn name(self) -> &'static str {
        const NAMES: &str = "probe open label lookup failed list read part extents read_path read_all show measure runs failed_at part_at";
        NAMES.split(' ').nth(self as usize).unwrap_or_default()
    }

    /// Its bit in a query.
    pub fn bit(self) -> u32 {
        1 << self as u32
    }
}

/// A query on an image.
#[derive(Debug, Clone, PartialEq, Eq)]
pub struct Query {
    /// The bits of the calls to make.
    pub calls: u32,
    /// How the whole image is opened (the sum of 1 checked, 2 maps, 4 highest), or [`BY_HAND`] plus the index of a
    /// volume made by hand.
    pub volume: u32,
    /// How many bytes of the image are there, or [`WATCHED`].
    pub there: u32,
    /// How names are matched; any number.
    pub matching: u32,
    /// The levels of a show.
    pub levels: u32,
    /// The number of bytes lent for the output.
    pub room: u32,
    /// The number of bytes lent for the work space.
    pub work: u32,
    /// The number of places lent for extents, for runs, and for the lengths of a list.
    pub slots: u32,
    /// The number of places lent for the answers of a list.
    pub answers: u32,
    /// An ICB as recorded.
    pub icb: [u8; 16],
    /// The budget of sectors of a show; [`UNLIMITED`] is no budget.
    pub most: u64,
    /// A path; for a list, the paths.
    pub text: Vec<u8>,
}

/// A query without calls: every number is 0, and there is no budget.
impl Default for Query {
    fn default() -> Query {
        let (icb, most, text) = ([0; 16], UNLIMITED, Vec::new());
        Query { calls: 0, volume: 0, there: 0, matching: 0, levels: 0, room: 0, work: 0, slots: 0, answers: 0, icb, most, text }
    }
}

impl Query {
    /// The calls to make, in order of number.
    pub fn calls(&self) -> impl Iterator<Item = Call> {
        Call::ALL.into_iter().filter(|call| self.has(*call))
    }

    /// Whether a call is made.
    pub fn has(&self, call: Call) -> bool {
        self.calls & call.bit() != 0
    }
}

/// An image and the queries on it.
#[derive(Debug, Clone, PartialEq, Eq)]
pub struct Image {
    /// Its name, in ASCII.
    pub name: String,
    /// The whole image.
    pub bytes: Vec<u8>,
    /// The volumes made by hand. Their labels are all zero.
    pub by_hand: Vec<Volume>,
    /// The queries, in order.
    pub queries: Vec<Query>,
}

/// The volume of a refused opening.
pub const NO_VOLUME: Volume = Volume {
    mount: Mount { start: 0, partition: 0, checked: 0, maps: 0, volumes: [0; 4], numbers: [0; 4], starts: [0; 4] },
    root: LongAd { length: 0, extent_type: 0, location: LbAddr { block: 0, partition_ref: 0 }, implementation_use: [0; 6] },
    label: [0; 32],
};

// ---- reading

/// Why a file is refused: what is wrong, and at which byte.
#[derive(Debug, Clone, Copy, PartialEq, Eq)]
pub struct Wrong {
    /// The first byte of what is cut short, or of the invalid number.
    pub at: usize,
    /// What is wrong there.
    pub what: &'static str,
}

impl fmt::Display for Wrong {
    fn fmt(&self, f: &mut fmt::Formatter<'_>) -> fmt::Result {
        write!(f, "byte {}: {}", self.at, self.what)
    }
}

/// What was read, or why it is refused.
pub type Result<T> = std::result::Result<T, Wrong>;

/// The bytes of a file up to the end of what is being read, and the position in it.
struct Input<'a> {
    bytes: &'a [u8],
    at: usize,
}

impl<'a> Input<'a> {
    fn is_empty(&self) -> bool {
        self.at == self.bytes.len()
    }

    fn take(&mut self, n: usize, cut: &'static str) -> Result<&'a [u8]> {
        let taken = self.bytes[self.at..].get(..n).ok_or(Wrong { at: self.at, what: cut })?;
        self.at += n;
        Ok(taken)
    }

    fn chunk<const N: usize>(&mut self) -> Result<[u8; N]> {
        Ok(self.take(N, "the file is cut")?.try_into().expect("as many as were taken"))
    }

    fn u16(&mut self) -> Result<u16> {
        self.chunk().map(u16::from_le_bytes)
    }

    fn u32(&mut self) -> Result<u32> {
        self.chunk().map(u32::from_le_bytes)
    }

    fn u64(&mut self) -> Result<u64> {
        self.chunk().map(u64::from_le_bytes)
    }

    /// A number that must be within a range.
    fn within(&mut self, meant: impl Fn(u32) -> bool, what: &'static str) -> Result<u32> {
        let at = self.at;
        let number = self.u32()?;
        if meant(number) { Ok(number) } else { Err(Wrong { at, what }) }
    }

    /// Bytes that are read by themselves.
    fn part(&mut self, n: usize, cut: &'static str) -> Result<Input<'a>> {
        let at = self.at;
        self.take(n, cut)?;
        Ok(Input { bytes: &self.bytes[..self.at], at })
    }

    fn name(&mut self) -> Result<String> {
        let (n, at) = (self.u16()?, self.at);
        let name = self.take(n.into(), "a name ends behind the file")?;
        if !name.is_ascii() {
            return Err(Wrong { at, what: "a name isn't ASCII" });
        }
        Ok(String::from_utf8_lossy(name).into_owned())
    }

    /// A packed image, over another image or over zeros.
    fn image(&mut self, base: &[u8]) -> Result<Vec<u8>> {
        let n = self.u32()?;
        let mut packed = self.part(n as usize, "a packed image ends behind the file")?;
        let (at, bytes) = (packed.at, &packed.bytes[packed.at..]);
        packed.within(|length| length as usize <= LONGEST, "an image is too long")?;
        sparse::expand_over(bytes, base.to_vec()).ok_or(Wrong { at, what: "an image isn't packed as its numbers say" })
    }

    fn volume(&mut self) -> Result<Volume> {
        let (start, partition, checked, maps) = (self.u32()?, self.u16()?, self.u32()?, self.u32()?);
        let mut four = || Ok([self.u16()?, self.u16()?, self.u16()?, self.u16()?]);
        let (volumes, numbers) = (four()?, four()?);
        let starts = [self.u32()?, self.u32()?, self.u32()?, self.u32()?];
        let mount = Mount { start, partition, checked, maps, volumes, numbers, starts };
        Ok(Volume { mount, root: long_ad(&self.chunk()?), label: [0; 32] })
    }

    /// A query on an image of this length, with this many volumes made by hand.
    fn query(&mut self, length: usize, by_hand: usize) -> Result<Query> {
        let calls = self.within(|bits| bits != 0 && bits >> Call::ALL.len() == 0, "no call, or one that isn't there")?;
        let at = self.at;
        let volume = self.within(|number| (number as usize) < BY_HAND as usize + by_hand, "a volume that isn't there")?;
        if volume >= BY_HAND && calls & (Open.bit() | Label.bit()) != 0 {
            return Err(Wrong { at, what: "opening, or a label, by a volume made by hand" });
        }
        let there = self.within(|there| there == WATCHED || there as usize <= length, "more is there than the image has")?;
        let (matching, levels) = (self.u32()?, self.u32()?);
        let (bytes, places) = (|n| n <= MOST_BYTES, |n| n <= MOST_PLACES);
        let (room, work) = (self.within(bytes, "too much room")?, self.within(bytes, "too much work space")?);
        let (slots, answers) = (self.within(places, "too many slots")?, self.within(places, "too many answers")?);
        let (icb, most, size) = (self.chunk()?, self.u64()?, self.u32()?);
        let text = self.take(size as usize, "a text ends behind its record")?.to_vec();
        Ok(Query { calls, volume, there, matching, levels, room, work, slots, answers, icb, most, text })
    }

    /// An image with its queries. The base is the last image that was stored alone.
    fn record(&mut self, base: &mut Option<Vec<u8>>) -> Result<Image> {
        let (name, at) = (self.name()?, self.at);
        let bytes = match (self.chunk()?, &base) {
            ([0], _) => base.insert(self.image(&[])?).clone(),
            ([1], Some(base)) => self.image(base)?,
            _ => return Err(Wrong { at, what: "a base that isn't there" }),
        };
        let volumes = self.u16()?;
        let by_hand = (0..volumes).map(|_| self.volume()).collect::<Result<Vec<Volume>>>()?;
        let n = self.u32()?;
        let mut asked = self.part(n as usize, "the queries end behind the file")?;
        let mut queries = Vec::new();
        while !asked.is_empty() {
            queries.push(asked.query(bytes.len(), by_hand.len())?);
        }
        Ok(Image { name, bytes, by_hand, queries })
    }
}

/// The images of a file, in order; none after the first that is refused.
pub fn images(file: &[u8]) -> impl Iterator<Item = Result<Image>> {
    let (mut input, mut base) = (Input { bytes: file, at: 0 }, None);
    std::iter::from_fn(move || {
        if input.is_empty() {
            return None;
        }
        let image = input.record(&mut base);
        if image.is_err() {
            input.at = file.len();
        }
        Some(image)
    })
}

// ---- writing

/// Appends an image to a file. It is stored alone.
pub fn put(file: &mut Vec<u8>, image: &Image) {
    let packed = sparse::pack(&image.bytes);
    file.extend((image.name.len() as u16).to_le_bytes());
    file.extend(image.name.as_bytes());
    file.push(0);
    file.extend((packed.len() as u32).to_le_bytes());
    file.extend(packed);
    file.extend((image.by_hand.len() as u16).to_le_bytes());
    image.by_hand.iter().for_each(|volume| put_volume(file, volume));
    let mut queries = Vec::new();
    image.queries.iter().for_each(|query| put_query(&mut queries, query));
    file.extend((queries.len() as u32).to_le_bytes());
    file.extend(queries);
}

fn put_volume(file: &mut Vec<u8>, Volume { mount, root, .. }: &Volume) {
    file.extend(mount.start.to_le_bytes());
    file.extend(mount.partition.to_le_bytes());
    file.extend(mount.checked.to_le_bytes());
    file.extend(mount.maps.to_le_bytes());
    mount.volumes.iter().chain(&mount.numbers).for_each(|n| file.extend(n.to_le_bytes()));
    mount.starts.iter().for_each(|n| file.extend(n.to_le_bytes()));
    file.extend(recorded(root));
}

fn put_query(to: &mut Vec<u8>, q: &Query) {
    let numbers = [q.calls, q.volume, q.there, q.matching, q.levels, q.room, q.work, q.slots, q.answers];
    numbers.iter().for_each(|n| to.extend(n.to_le_bytes()));
    to.extend(q.icb);
    to.extend(q.most.to_le_bytes());
    to.extend((q.text.len() as u32).to_le_bytes());
    to.extend(&q.text);
}

#[cfg(test)]
mod tests {
    use super::*;

    fn image() -> Image {
        let mount = Mount {
            start: 1,
            partition: 2,
            checked: 3,
            maps: 4,
            volumes: [5, 6, 7, 8],
            numbers: [9, 10, 11, 12],
            starts: [13, 14, 15, 16],
        };
        let root = long_ad(b"\x00\x08\x00\x40ICB as recorded"[..16].try_into().unwrap());
        let query = Query { calls: 0xfff9, volume: BY_HAND, there: 5000, matching: 9, levels: 16, room: 65_536, ..Query::default() };
        let other = Query { calls: Open.bit(), volume: 7, there: WATCHED, work: 65_536, slots: 1024, answers: 1024, ..Query::default() };
        let queries = vec![Query { icb: recorded(&root), most: 7, text: b"a/b".to_vec(), ..query }, other];
        Image {
            name: "an image".into(),
            bytes: [vec![0; 4000], vec![7; 1000]].concat(),
            by_hand: vec![Volume { mount, root, label: [0; 32] }],
            queries,
        }
    }

    fn file() -> Vec<u8> {
        let mut file = Vec::new();
        put(&mut file, &image());
        file
    }

    fn read(file: &[u8]) -> Result<Vec<Image>> {
        images(file).collect()
    }

    #[test]
    fn what_is_written_is_read() {
        assert_eq!(read(&[file(), file()].concat()), Ok(vec![image(), image()]));
        assert_eq!(read(&[]), Ok(Vec::new()));
    }

    #[test]
    fn an_image_is_laid_over_the_last_that_stood_alone() {
        let mut over = Image { bytes: Vec::new(), queries: Vec::new(), ..image() };
        let mut patch = Vec::new();
        put(&mut patch, &over);
        patch[10] = 1;
        assert_eq!(read(&patch), Err(Wrong { at: 10, what: "a base that isn't there" }));
        // Its length is its own: that of the base, and no runs.
        patch[15..17].copy_from_slice(&5000u16.to_le_bytes());
        over.bytes = image().bytes;
        assert_eq!(read(&[file(), patch.clone(), patch].concat()), Ok(vec![image(), over.clone(), over]));
    }

    #[test]
    fn a_file_that_is_cut_is_refused() {
        let file = file();
        for n in 1..file.len() {
            let wrong = read(&file[..n]).unwrap_err();
            assert!(wrong.at <= n, "{n}: {wrong}");
        }
        let wrong = read(&[&file[..], b"\x01"].concat()).unwrap_err();
        assert_eq!(wrong.to_string(), format!("byte {}: the file is cut", file.len()));
    }

    /// Puts a number at a place of the file: the file must be refused there, or at the place given.
    #[test]
    fn a_number_that_means_nothing_is_refused() {
        let file = file();
        let packed = 2 + 8 + 1 + 4;
        let queries = packed + 16 + 1000 + 2 + 62 + 4;
        let second = queries + 64 + 3;
        let odd = |at: usize, number: u32, said: usize, what: &str| {
            let mut file = file.clone();
            file[at..at + 4].copy_from_slice(&number.to_le_bytes());
            let wrong = read(&file).unwrap_err();
            assert!(wrong.at == said && wrong.what.contains(what), "{at}: {wrong}");
        };
        odd(10, 2, 10, "base");
        odd(packed - 4, 1 << 20, packed, "packed image ends");
        odd(packed, LONGEST as u32 + 1, packed, "too long");
        odd(packed, 4999, packed, "isn't packed");
        odd(packed + 4, 0, packed, "isn't packed");
        odd(packed + 4, 2, packed, "isn't packed");
        odd(packed + 8, 4001, packed, "isn't packed");
        odd(queries - 4, 4000, queries, "queries end");
        odd(queries, 0, queries, "no call");
        odd(queries, 1 << 16, queries, "no call");
        odd(queries, Label.bit(), queries + 4, "by hand");
        odd(queries + 4, BY_HAND + 1, queries + 4, "volume");
        odd(queries + 8, 5001, queries + 8, "there");
        odd(second + 8, WATCHED - 1, second + 8, "there");
        odd(queries + 20, MOST_BYTES + 1, queries + 20, "room");
        odd(queries + 24, MOST_BYTES + 1, queries + 24, "work");
        odd(queries + 28, MOST_PLACES + 1, queries + 28, "slots");
        odd(queries + 32, MOST_PLACES + 1, queries + 32, "answers");
        odd(second + 60, 1, second + 64, "text ends");
        let mut named = file.clone();
        named[4] = 0x80;
        assert_eq!(read(&named), Err(Wrong { at: 2, what: "a name isn't ASCII" }));
    }
}
