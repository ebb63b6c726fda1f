//! The original, on an image in memory, with a list of the sectors that it asks for.

use super::calls::{Icb, Volume};
use super::mapped::Mapped;
use super::records::seal;
use crate::error::BlurayError;
use crate::udf::{AdType, AllocExtent, DirEntry, FileEntry, LbAddr, LongAd, UdfDisc, probe_vrs, within};
use std::cell::Cell;
use std::io::{Error, ErrorKind, Read, Result, Seek, SeekFrom};
use strandlodge_sys::vault::BAD_CRC;

/// An information length above this makes the original ask for as much memory before it reads a byte. No image here holds so much.
pub const ABSURD: u64 = 1 << 30;

thread_local! {
    /// The sector that can't be read.
    static DENIED: Cell<Option<u64>> = const { Cell::new(None) };
}

/// What is asked of an image of which a sector can't be read.
pub fn denying<T>(sector: Option<u64>, ask: impl FnOnce() -> T) -> T {
    DENIED.set(sector);
    let came = ask();
    DENIED.set(None);
    came
}

/// Whether a sector can't be read.
pub fn is_denied(sector: u64) -> bool {
    DENIED.get() == Some(sector)
}

/// A reader of an image that logs each sector that is sought.
pub struct Logged<'a> {
    image: &'a [u8],
    at: u64,
    pub asked: Vec<u64>,
    /// The next sector is read with its information length lowered to `ABSURD`.
    lowered: bool,
}

impl<'a> Logged<'a> {
    pub fn new(image: &'a [u8]) -> Self {
        Logged { image, at: 0, asked: Vec::new(), lowered: false }
    }
}

impl Read for Logged<'_> {
    fn read(&mut self, to: &mut [u8]) -> Result<usize> {
        self.read_exact(to).map(|()| to.len())
    }

    fn read_exact(&mut self, to: &mut [u8]) -> Result<()> {
        let end = self.at.checked_add(to.len() as u64).filter(|e| *e <= self.image.len() as u64);
        let Some(end) = end else {
            return Err(Error::from(ErrorKind::UnexpectedEof));
        };
        if is_denied(self.at / 2048) {
            return Err(Error::other("denied"));
        }
        to.copy_from_slice(&self.image[self.at as usize..end as usize]);
        self.at = end;
        if std::mem::take(&mut self.lowered) {
            to[56..64].copy_from_slice(&ABSURD.to_le_bytes());
            // The body that was right is right again.
            let length = usize::from(u16::from_le_bytes([to[10], to[11]])).min(to.len() - 16);
            seal(to, length);
        }
        Ok(())
    }
}

impl Seek for Logged<'_> {
    fn seek(&mut self, to: SeekFrom) -> Result<u64> {
        let SeekFrom::Start(at) = to else { unreachable!("the original seeks from the start alone") };
        self.asked.push(at / 2048);
        self.at = at;
        Ok(at)
    }
}

/// The answer number of an error kind.
pub fn number(e: &BlurayError) -> u64 {
    match e {
        BlurayError::Io(_) => 1,
        BlurayError::Malformed(_) => 2,
        BlurayError::NotBluray(_) => 3,
        BlurayError::Unsupported(_) => 4,
        // Nothing here is encrypted: it is how a wrong body is told.
        BlurayError::Decrypt(_) => BAD_CRC,
    }
}

/// What a call came to, and the sectors that it asked for.
pub struct Came<T> {
    pub value: std::result::Result<T, u64>,
    pub asked: Vec<u64>,
}

pub fn long(icb: Icb) -> LongAd {
    LongAd {
        length: icb.length,
        extent_type: icb.extent_type,
        location: LbAddr { block: icb.block, partition_ref: icb.partition },
        implementation_use: icb.implementation_use,
    }
}

pub fn icb(l: LongAd) -> Icb {
    Icb {
        length: l.length,
        extent_type: l.extent_type,
        block: l.location.block,
        partition: l.location.partition_ref,
        implementation_use: l.implementation_use,
    }
}

pub fn probe(image: &[u8]) -> bool {
    probe_vrs(&mut Logged::new(image)).expect("a probe of memory has no seek that fails")
}

/// Opening: the volume, with the label's bytes as the last primary volume descriptor has them, and the label decoded.
pub fn open(image: &[u8]) -> Came<(Volume, String)> {
    let mut reader = Logged::new(image);
    // `open` takes the reader, so that its log is had from a mutable borrow.
    let opened = UdfDisc::open(&mut reader);
    let value = match opened {
        Err(e) => Err(number(&e)),
        Ok(d) => Ok((
            Volume {
                start: d.partition_start_sector as u32,
                partition: d.partition_number,
                root: icb(d.root_directory_icb),
                ..Volume::default()
            },
            d.volume_identifier.clone(),
        )),
    };
    // The first is the probe's seek, which opening doesn't count.
    let asked = reader.asked.split_off(1);
    let value = value.map(|(mut v, name)| {
        v.label = label_of(image, &asked);
        (v, name)
    });
    Came { value, asked }
}

/// The label's field in the last primary volume descriptor among the sectors between the anchor and the file set descriptor.
fn label_of(image: &[u8], asked: &[u64]) -> [u8; 32] {
    let sequence = &asked[1..asked.len() - 1];
    let at = |s: &u64| *s as usize * 2048;
    let last = sequence.iter().rev().find(|s| image[at(s)..][..2] == [1, 0]).expect("a volume has a label");
    image[at(last) + 24..][..32].try_into().unwrap()
}

/// An opened volume of the original, whoever made it.
pub struct Original<'a> {
    disc: UdfDisc<Logged<'a>>,
    /// The model that answers in its place where the volume has maps.
    mapped: Option<Mapped<'a>>,
    /// An information length was beyond what the original can be asked for.
    pub absurd: bool,
}

impl<'a> Original<'a> {
    pub fn new(image: &'a [u8], v: Volume) -> Self {
        let mapped = (v.maps != 0).then(|| Mapped::new(image, v));
        Original { disc: within::disc(Logged::new(image), v.start, v.partition, long(v.root)), mapped, absurd: false }
    }

    fn came<T>(&mut self, value: std::result::Result<T, BlurayError>) -> Came<T> {
        Came { value: value.map_err(|e| number(&e)), asked: std::mem::take(&mut within::reader(&mut self.disc).asked) }
    }

    pub fn entry(&mut self, at: Icb) -> Came<FileEntry> {
        if let Some(mapped) = &self.mapped {
            return mapped.entry(at);
        }
        let value = within::entry(&mut self.disc, long(at));
        self.came(value)
    }

    /// Lowers an absurd information length for the read that follows, whose first sector is the entry's.
    fn tame(&mut self, at: Icb) {
        let absurd = match self.entry(at).value {
            Ok(e) => e.information_length > ABSURD && e.ad_type != AdType::EmbeddedInIcb,
            Err(_) => false,
        };
        self.absurd |= absurd;
        within::reader(&mut self.disc).lowered = absurd;
    }

    pub fn read(&mut self, at: Icb) -> Came<Vec<u8>> {
        if let Some(mapped) = &self.mapped {
            return mapped.read(at);
        }
        self.tame(at);
        let value = self.disc.read_file(long(at));
        if let Ok(bytes) = &value {
            assert!((bytes.len() as u64) < ABSURD, "an image holds too much to be compared");
        }
        self.came(value)
    }

    pub fn list(&mut self, at: Icb) -> Came<Vec<DirEntry>> {
        if let Some(mapped) = &self.mapped {
            return mapped.list(at);
        }
        self.tame(at);
        let value = self.disc.read_directory(long(at));
        self.came(value)
    }

    /// The original's own lookup. Not to be asked where a directory on the path is absurd.
    pub fn lookup(&mut self, path: &str) -> Came<Icb> {
        let value = self.disc.lookup(path).map(icb);
        self.came(value)
    }

    pub fn read_path(&mut self, path: &str) -> Came<Vec<u8>> {
        let value = self.disc.read_path(path);
        self.came(value)
    }

    pub fn extents(e: &FileEntry) -> Vec<AllocExtent> {
        e.extents()
    }

    /// Where an embedded file's bytes stand in its sector, and how many they are; nothing for another file.
    pub fn embedded(e: &FileEntry) -> Option<(usize, usize)> {
        if e.ad_type != AdType::EmbeddedInIcb {
            return None;
        }
        let prefix = if e.is_extended() { 216 } else { 176 };
        let length = e.information_length.min(e.embedded_data.len() as u64);
        Some((prefix + e.length_of_extended_attributes as usize, length as usize))
    }
}
