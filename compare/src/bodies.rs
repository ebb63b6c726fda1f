//! The bodies of descriptors: tags with right CRCs, and ways in which a CRC, its length or what it is of is another.

use crate::disc::{Disc, Noted};
use crate::random::Random;
use crate::records::{mend, put16, seal};

/// The most bytes that a CRC can be of.
const MOST: usize = u16::MAX as usize;

fn u16_at(b: &[u8], at: usize) -> usize {
    u16::from_le_bytes([b[at], b[at + 1]]).into()
}

fn u32_at(b: &[u8], at: usize) -> usize {
    u32::from_le_bytes(b[at..at + 4].try_into().unwrap()) as usize
}

/// A tag that may be summed behind: of a listed id, with its reserved byte 0 and its checksum right.
fn is_tag(whole: &[u8]) -> bool {
    let mut mended = whole[..16].to_vec();
    mend(&mut mended);
    matches!(u16_at(whole, 0), 1..=9 | 256..=266) && whole[5] == 0 && mended[4] == whole[4]
}

/// How many bytes a descriptor has behind its tag, by its own fields.
fn own(whole: &[u8]) -> usize {
    let entry = |prefix: usize| prefix + u32_at(whole, prefix - 8) + u32_at(whole, prefix - 4);
    let size = match u16_at(whole, 0) {
        257 if whole.len() >= 38 => (38 + u16_at(whole, 36) + usize::from(whole[19])).next_multiple_of(4),
        258 if whole.len() >= 24 => 24 + u32_at(whole, 20),
        261 if whole.len() >= 176 => entry(176),
        266 if whole.len() >= 216 => entry(216),
        _ => 512,
    };
    size - 16
}

/// The most bytes that a CRC of these can be of.
fn most(whole: &[u8]) -> usize {
    (whole.len() - 16).min(MOST)
}

impl Disc {
    /// What is at hand of a descriptor, with its tag, and up to where a CRC can reach; nothing where not all of it is in the image.
    fn whole(&self, noted: &Noted) -> Option<Vec<u8>> {
        noted.runs(16 + MOST).map(|run| self.image.get(run)).collect::<Option<Vec<_>>>().map(|runs| runs.concat())
    }

    /// The same, where a tag stands in front.
    fn tagged(&self, noted: &Noted) -> Option<Vec<u8>> {
        self.whole(noted).filter(|whole| whole.len() >= 16 && is_tag(whole))
    }

    /// Puts bytes back from where they came.
    fn put_back(&mut self, noted: &Noted, bytes: &[u8]) {
        let mut rest = bytes;
        for run in noted.runs(bytes.len()) {
            let (front, behind) = rest.split_at(run.len());
            self.image[run].copy_from_slice(front);
            rest = behind;
        }
    }

    /// Gives each tag the CRC of as many bytes as is said of what is at hand, those inside another descriptor first.
    fn seal_by(&mut self, mut length: impl FnMut(&[u8]) -> usize) {
        for noted in self.noted.clone().iter().rev() {
            if let Some(mut whole) = self.tagged(noted) {
                let length = length(&whole).min(most(&whole));
                seal(&mut whole, length);
                self.put_back(noted, &whole[..16]);
            }
        }
    }

    /// Gives each tag the CRC of its descriptor.
    pub fn seal(&mut self) {
        self.seal_by(own);
    }

    /// The same, but for a few, whose CRC is of all that is at hand, of nothing, or of any number of bytes.
    pub fn seal_oddly(&mut self, random: &mut Random) {
        self.seal_by(|whole| match random.below(24) {
            0 => most(whole),
            1 => 0,
            2 => random.below(most(whole) + 1),
            _ => own(whole),
        });
    }

    /// Ruins a descriptor, if its tag is there.
    pub fn ruin(&mut self, noted: &Noted, way: Ruin, random: &mut Random) {
        if let Some(mut whole) = self.tagged(noted) {
            way.on(&mut whole, random);
            self.put_back(noted, &whole);
        }
    }

    /// Ruins a descriptor at random: of each kind that there is as often as of any other.
    pub fn ruin_any(&mut self, random: &mut Random) {
        let mut kinds: Vec<(usize, Vec<Noted>)> = Vec::new();
        for noted in &self.noted {
            let Some(whole) = self.tagged(noted) else {
                continue;
            };
            let id = u16_at(&whole, 0);
            match kinds.iter_mut().find(|kind| kind.0 == id) {
                Some(kind) => kind.1.push(noted.clone()),
                None => kinds.push((id, vec![noted.clone()])),
            }
        }
        if !kinds.is_empty() {
            let (_, of) = random.pick(&kinds);
            let (noted, way) = (random.pick(of).clone(), *random.pick(&Ruin::ALL));
            self.ruin(&noted, way, random);
        }
    }
}

/// What becomes of a descriptor whose body was right. The tag's checksum is right again, but for the last.
#[derive(Clone, Copy, Debug, PartialEq, Eq)]
pub enum Ruin {
    /// A bit that the CRC is of.
    Body,
    /// A bit behind those: the body is right.
    Behind,
    /// Other fields of the tag, which the CRC isn't of: the body is right.
    Tag,
    Crc,
    /// A CRC length of a byte less or more, with the CRC as it was.
    Shorter,
    Longer,
    /// The CRC of all that is at hand: the body is right.
    All,
    /// A byte more than is at hand; and as many as can be said.
    Beyond,
    Far,
    /// A CRC of nothing, which is 0: the body is right. And one that isn't.
    Nothing,
    NotNothing,
    /// A wrong body under another id, which is refused behind it.
    Id,
    /// A wrong body under a tag that is refused before it.
    Checksum,
}

impl Ruin {
    pub const ALL: [Ruin; 13] = {
        use Ruin::*;
        [Body, Behind, Tag, Crc, Shorter, Longer, All, Beyond, Far, Nothing, NotNothing, Id, Checksum]
    };

    fn on(self, whole: &mut [u8], random: &mut Random) {
        let length = u16_at(whole, 10);
        match self {
            Ruin::Body => flip(whole, 16, 16 + length, random),
            Ruin::Behind => flip(whole, 16 + length, whole.len(), random),
            Ruin::Tag => whole[6..8].copy_from_slice(&random.bytes(2)),
            Ruin::Crc => flip(whole, 8, 10, random),
            Ruin::Shorter => put16(whole, 10, length.saturating_sub(1) as u16),
            Ruin::Longer => put16(whole, 10, (length + 1).min(MOST) as u16),
            Ruin::All => seal(whole, most(whole)),
            Ruin::Beyond => put16(whole, 10, (most(whole) + 1).min(MOST) as u16),
            Ruin::Far => put16(whole, 10, MOST as u16),
            Ruin::Nothing => seal(whole, 0),
            Ruin::NotNothing => {
                seal(whole, 0);
                whole[8] = 1;
            }
            Ruin::Id => {
                put16(whole, 0, *random.pick(&[1, 3, 4, 7, 9, 259, 264]));
                flip(whole, 16, 16 + length, random);
            }
            Ruin::Checksum => flip(whole, 16, 16 + length, random),
        }
        mend(whole);
        if self == Ruin::Checksum {
            whole[4] ^= 1 << random.below(8);
        }
    }
}

/// Flips a bit of these bytes, if there are any.
fn flip(whole: &mut [u8], from: usize, end: usize, random: &mut Random) {
    let end = end.min(whole.len());
    if from < end {
        whole[from + random.below(end - from)] ^= 1 << random.below(8);
    }
}
