//! A reader that is asked for sectors, each once; adjacent sectors together.

use crate::calls;
use crate::counted::SECTOR_SIZE;
use std::fmt;
use std::io::{self, Read, Seek, SeekFrom};

/// The most sectors that are asked for together: 64 KiB.
pub const TOGETHER: u64 = 32;

const SECTOR: usize = SECTOR_SIZE as usize;

/// A sector that a reader could not read.
#[derive(Debug)]
pub struct Missed {
    /// The sector, counted from the start of the disc.
    pub sector: u64,
    /// What the reader reported; [`UnexpectedEof`](io::ErrorKind::UnexpectedEof) if the sector is not completely there.
    pub error: io::Error,
}

/// A reader, and the sectors that it gave and that were not taken yet.
pub struct Source<R> {
    pub reader: R,
    /// The position of the reader, if it is known.
    stands: Option<u64>,
    buffer: Vec<u8>,
    /// How many bytes of the buffer were taken, and how many came.
    taken: usize,
    came: usize,
    /// Why no more came, until it is reported.
    ended: Option<io::Error>,
    /// The sector that could not be read, once it was wanted.
    pub missed: Option<Missed>,
}

impl<R: Read + Seek> Source<R> {
    pub fn new(reader: R) -> Source<R> {
        Source { reader, stands: None, buffer: Vec::new(), taken: 0, came: 0, ended: None, missed: None }
    }

    /// Call this before a call: it forgets what an earlier one left, so that each sector is asked for anew.
    pub fn begin(&mut self) {
        (self.taken, self.came, self.ended, self.missed) = (0, 0, None, None);
    }

    /// Whether the next sector has come, or is known to be unreadable.
    pub fn is_full(&self) -> bool {
        self.taken < self.came || self.ended.is_some()
    }

    /// Asks for some sectors, each of which is wanted in turn.
    pub fn fetch(&mut self, first: u64, sectors: u64) {
        let length = sectors.clamp(1, TOGETHER) as usize * SECTOR;
        if self.buffer.len() < length {
            self.buffer.resize(length, 0);
        }
        let came = self.stand_at(first * SECTOR_SIZE).and_then(|()| self.fill(length));
        (self.taken, self.came) = (0, self.came / SECTOR * SECTOR);
        if let Err(error) = came {
            // Where a reader stands that failed it alone knows.
            (self.stands, self.ended) = (None, Some(error));
        }
    }

    fn stand_at(&mut self, place: u64) -> io::Result<()> {
        self.came = 0;
        if self.stands != Some(place) {
            self.stands = None;
            self.reader.seek(SeekFrom::Start(place))?;
            self.stands = Some(place);
        }
        Ok(())
    }

    /// Reads until there are this many bytes. What came before an error counts.
    fn fill(&mut self, length: usize) -> io::Result<()> {
        while self.came < length {
            let room = &mut self.buffer[self.came..length];
            match self.reader.read(room) {
                Ok(0) => return Err(io::ErrorKind::UnexpectedEof.into()),
                Ok(n) => self.came += n.min(room.len()),
                Err(error) if error.kind() == io::ErrorKind::Interrupted => {}
                Err(error) => return Err(error),
            }
        }
        self.stands = self.stands.map(|place| place + length as u64);
        Ok(())
    }

    /// The sector with this number, which is the next one; empty if it could not be read.
    pub fn take(&mut self, number: u64) -> &[u8] {
        let at = self.taken;
        if at < self.came {
            self.taken += SECTOR;
            return &self.buffer[at..self.taken];
        }
        self.missed = self.ended.take().map(|error| Missed { sector: number, error });
        &[]
    }

    /// Looks at a sector outside a call's list. This keeps what the last call left, except what it had not taken.
    pub fn look(&mut self, number: u64) -> Option<Vec<u8>> {
        number.checked_mul(SECTOR_SIZE)?;
        let missed = self.missed.take();
        self.fetch(number, 1);
        let bytes = self.take(number).to_vec();
        self.begin();
        self.missed = missed;
        (bytes.len() == SECTOR).then_some(bytes)
    }

    /// The number of bytes of the reader, if it can tell.
    pub fn length(&mut self) -> Option<u64> {
        self.stands = None;
        self.reader.seek(SeekFrom::End(0)).ok()
    }
}

/// An image as a reader: what is read is copied, each byte read once, even if the image is a map that someone writes
/// to.
pub struct Copied<'a> {
    image: &'a [u8],
    at: u64,
}

impl<'a> Copied<'a> {
    pub fn new(image: &'a [u8]) -> Copied<'a> {
        Copied { image, at: 0 }
    }
}

impl Read for Copied<'_> {
    fn read(&mut self, to: &mut [u8]) -> io::Result<usize> {
        let from = usize::try_from(self.at).ok().and_then(|at| self.image.get(at..)).unwrap_or_default();
        let n = calls::copy(from, to);
        self.at += n as u64;
        Ok(n)
    }
}

impl Seek for Copied<'_> {
    fn seek(&mut self, to: SeekFrom) -> io::Result<u64> {
        self.at = match to {
            SeekFrom::Start(at) => at,
            SeekFrom::End(by) => (self.image.len() as u64).saturating_add_signed(by),
            SeekFrom::Current(by) => self.at.saturating_add_signed(by),
        };
        Ok(self.at)
    }
}

impl fmt::Display for Missed {
    fn fmt(&self, f: &mut fmt::Formatter<'_>) -> fmt::Result {
        match self.error.kind() {
            io::ErrorKind::UnexpectedEof => write!(f, "sector {} is missing: the disc or image ends before it", self.sector),
            _ => write!(f, "can't read sector {}: {}", self.sector, self.error),
        }
    }
}
