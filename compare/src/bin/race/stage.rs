//! An image in the making, around a subject, which its root names twice, as a file and as a directory: the subject's bytes are entries of a
//! directory, so that it can be read, listed and walked through.

use crate::flips::{Flip, Of};
use common::calls::{Call, Icb, Volume};
use common::disc::{Disc, Layout};
use common::records::*;

/// An image, the place in it or in what else is lent that is flipped, and what may be asked of it.
pub struct Raced {
    pub name: String,
    pub image: Vec<u8>,
    pub flip: Flip,
    pub calls: Vec<Call>,
    pub volume: Volume,
    pub icbs: Vec<Icb>,
    pub paths: Vec<Vec<u8>>,
    /// The lengths of a shelf's images.
    pub shelf: Vec<u64>,
}

impl Raced {
    /// The bytes that the flip is in, as they stand in its first state.
    pub fn flipped(&self) -> Vec<u8> {
        match self.flip.of {
            Of::Image => self.image.clone(),
            Of::Path => self.paths[0].clone(),
            Of::Lengths => self.shelf.iter().flat_map(|n| n.to_le_bytes()).collect(),
        }
    }
}

/// The bytes that each entry of a directory has here.
pub const CUE: usize = 48;
/// Where an entry's descriptors start.
pub const AREA: usize = 176;
/// A length that goes beyond each of these images, and a block that is in none.
pub const BEYOND: u64 = (1 << 30) - 1;
pub const NOWHERE: u64 = 0xffff_fff0;
/// An information length that none of these files comes to.
pub const ENDLESS: u64 = u64::MAX >> 1;

/// An image in the making.
pub struct Stage {
    pub disc: Disc,
    cue: Icb,
    named: usize,
}

impl Stage {
    pub fn new() -> Stage {
        let mut disc = Disc::new(40, 0);
        let (cue, _) = disc.store(b"a look", &Layout::of(3));
        Stage { disc, cue, named: 0 }
    }

    /// So many entries of a directory, with names that no other has.
    pub fn cues(&mut self, n: usize) -> Vec<u8> {
        let from = self.named;
        self.named += n;
        let bytes: Vec<u8> =
            (from..self.named).flat_map(|i| Item::new(name8(format!("cue {i:05}").as_bytes()), self.cue, 0).bytes()).collect();
        assert_eq!(bytes.len(), n * CUE);
        bytes
    }

    pub fn lay(&mut self, bytes: &[u8]) -> u32 {
        let block = self.disc.take(bytes.len().div_ceil(2048) as u32);
        self.disc.put_block(block, bytes);
        block
    }

    pub fn lay_cues(&mut self, n: usize) -> u32 {
        let bytes = self.cues(n);
        self.lay(&bytes)
    }

    /// Short descriptors of one cue each, all of the same.
    pub fn many(&mut self, n: usize) -> Vec<u8> {
        let block = self.lay_cues(1);
        descriptor(0, CUE as u32, 0, block, 0).repeat(n)
    }

    /// The entry of the subject.
    pub fn entry(&mut self, kind: u8, area: &[u8], information: u64) -> u32 {
        self.lay(&Entry { extended: false, flags: kind.into(), information, attributes: 0, area }.bytes())
    }

    /// Where a byte of a block stands in the image.
    pub fn at(&self, block: u32, offset: usize) -> usize {
        (self.disc.volume.start as usize + block as usize) * 2048 + offset
    }

    /// The image whole, around its subject. What is flipped stands at `offset` in a block.
    pub fn flipped(self, name: &str, subject: u32, (block, offset): (u32, usize), width: usize, other: u64) -> Raced {
        let at = self.at(block, offset);
        self.flipped_at(name, subject, at, width, other)
    }

    /// The same, where what is flipped stands at a place of the image.
    pub fn flipped_at(mut self, name: &str, subject: u32, at: usize, width: usize, other: u64) -> Raced {
        let root = self.finish(subject);
        self.raced(name, subject, root, (at, width, other))
    }

    /// The same with right CRCs.
    pub fn sealed(mut self, name: &str, subject: u32, at: usize, width: usize, other: u64) -> Raced {
        let root = self.finish(subject);
        self.disc.seal();
        self.raced(name, subject, root, (at, width, other))
    }

    /// The same, where what is flipped is the CRC length of the tag at a place: its own, or as many bytes as it can be. The location's low byte
    /// keeps the checksum right.
    pub fn sealed_length(mut self, name: &str, subject: u32, tag: usize) -> Raced {
        let root = self.finish(subject);
        self.disc.seal();
        let mut behind: [u8; 8] = self.disc.image[tag + 8..tag + 16].try_into().unwrap();
        let sum = |bytes: &[u8]| bytes.iter().fold(0u8, |sum, byte| sum.wrapping_add(*byte));
        let right = sum(&behind);
        behind[2..4].fill(0xff);
        behind[4] = behind[4].wrapping_add(right.wrapping_sub(sum(&behind)));
        self.raced(name, subject, root, (tag + 8, 8, u64::from_le_bytes(behind)))
    }

    /// Closes the disc around its subject: its root.
    fn finish(&mut self, subject: u32) -> Icb {
        let item = |name: &[u8], characteristics| Item::new(name8(name), Icb::at(subject, 0), characteristics);
        let root = self.disc.store_directory(&[item(b"FILE", 0), item(b"DIR", DIRECTORY)], &[], &Layout::of(3));
        self.disc.finish(root, &name8(&[0xe9; 20]));
        root
    }

    fn raced(self, name: &str, subject: u32, root: Icb, (at, width, other): (usize, usize, u64)) -> Raced {
        let paths = [&b"FILE"[..], b"DIR/CUE 00005", b"dir/none"].map(|path| path.to_vec());
        Raced {
            name: name.to_string(),
            flip: Flip::new(Of::Image, &self.disc.image, at, width, other),
            calls: Call::ALL.to_vec(),
            volume: self.disc.volume,
            icbs: vec![Icb::at(subject, 0), root],
            paths: paths.to_vec(),
            shelf: vec![self.disc.image.len() as u64],
            image: self.disc.image,
        }
    }
}

pub fn short(length: usize, block: u32) -> Vec<u8> {
    descriptor(0, length as u32, 0, block, 0)
}

/// A descriptor that leads on to so many bytes of another area.
pub fn leads(length: usize, block: u32) -> Vec<u8> {
    descriptor(0, length as u32, 3, block, 0)
}
