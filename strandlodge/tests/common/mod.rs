//! What the tests share: the sample show, bare, and larger discs made from it.
#![allow(dead_code)]

pub mod asked;
pub mod command;

use strandlodge_sys::sparse;

/// The sample show as the program `first_cue` has it, with what the reader asks for alone: its partition starts at 288 and has number 5, and its root is
/// block 3. (`vault sample` writes the same files in the same blocks, on a disc that other readers take too.)
pub fn show() -> Vec<u8> {
    sparse::expand(include_bytes!("../../../crates/first_cue/stdin")).unwrap()
}

/// The sample show closed once more, with the older partition descriptor behind the newer, as some burners leave it: sectors 32 to 36 have
/// the primary volume descriptor, the partition's (number 2), the logical volume's, the older partition's (number 1), and the terminating
/// one. In the older one the partition starts where nothing is.
pub fn reclosed() -> Vec<u8> {
    let mut image = show();
    image.copy_within(35 * SECTOR..36 * SECTOR, 36 * SECTOR);
    image.copy_within(33 * SECTOR..34 * SECTOR, 35 * SECTOR);
    image[35 * SECTOR + 16] = 1;
    image[35 * SECTOR + 188..][..4].copy_from_slice(&200u32.to_le_bytes());
    seal(&mut image[35 * SECTOR..], VOLUME_BODY);
    image
}

/// How many bytes the CRCs of the sample show's volume descriptors are of.
pub const VOLUME_BODY: usize = 512 - 16;

/// The CRC of a body (ECMA-167 3/7.2.6), a bit at a time.
pub fn crc(body: &[u8]) -> u16 {
    let bit = |register: u16, _| register << 1 ^ if register >> 15 == 1 { 0x1021 } else { 0 };
    body.iter().fold(0, |register, byte| (0..8).fold(register ^ u16::from(*byte) << 8, bit))
}

/// Makes the checksum of the tag at the front right.
pub fn mend(whole: &mut [u8]) {
    whole[4] = 0;
    whole[4] = whole[..16].iter().fold(0, |sum: u8, byte| sum.wrapping_add(*byte));
}

/// Gives the tag at the front the CRC of so many bytes behind it.
pub fn seal(whole: &mut [u8], length: usize) {
    let crc = crc(&whole[16..16 + length]);
    whole[8..10].copy_from_slice(&crc.to_le_bytes());
    whole[10..12].copy_from_slice(&(length as u16).to_le_bytes());
    mend(whole);
}

/// The same of a descriptor, with the CRC of all of it, or of as much as a CRC can be of.
pub fn sealed(mut whole: Vec<u8>) -> Vec<u8> {
    let length = (whole.len() - 16).min(u16::MAX.into());
    seal(&mut whole, length);
    whole
}

/// The runs of a file, joined, are what a read gives, with its refusal and its count.
pub fn hold_runs(vault: &strandlodge::Counted, icb: strandlodge::LongAd) {
    let runs = vault.runs(icb).map(|runs| runs.map(|runs| runs.collect::<Vec<_>>().concat()));
    assert_eq!(runs, vault.read_file(icb));
}

pub const SECTOR: usize = 2048;
const START: usize = 288;
const ROOT: u32 = 3;
const PARTITION: u16 = 5;

/// Bytes that differ from place to place.
pub fn noise(n: usize) -> Vec<u8> {
    (0..n as u32).map(|i| (i.wrapping_mul(2_654_435_761) >> 24) as u8).collect()
}

/// The sample show with more behind it.
pub struct TestDisc(pub Vec<u8>);

impl TestDisc {
    pub fn new() -> TestDisc {
        TestDisc(show())
    }

    /// Lays bytes in new blocks, and gives the first.
    pub fn lay(&mut self, bytes: &[u8]) -> u32 {
        let block = self.0.len() / SECTOR - START;
        self.0.extend_from_slice(bytes);
        self.0.resize(self.0.len().next_multiple_of(SECTOR), 0);
        block as u32
    }

    /// Lays the entry of a file with an area of this kind (0 short_ads, 3 embedded).
    pub fn entry(&mut self, kind: u8, area: &[u8], length: u64) -> u32 {
        let entry = entry(kind, area, length);
        self.lay(&entry)
    }

    /// Lays a file in one extent.
    pub fn file(&mut self, bytes: &[u8]) -> u32 {
        let block = self.lay(bytes);
        self.entry(0, &short_ad(bytes.len(), block), bytes.len() as u64)
    }

    /// Lays a directory of these identifiers.
    pub fn directory(&mut self, entries: &[Vec<u8>]) -> u32 {
        self.file(&entries.concat())
    }

    /// Makes the entry at `block` the root.
    pub fn root(&mut self, block: u32) {
        let from = (START + block as usize) * SECTOR;
        self.0.copy_within(from..from + SECTOR, (START + ROOT as usize) * SECTOR);
    }
}

/// A disc that was made to do harm: so many levels of directories, the root first, each with 20 entries that lead to the next, and the last one's to a file.
pub fn harm(levels: usize) -> TestDisc {
    let mut disc = TestDisc::new();
    let mut below = disc.entry(3, b"cue", 3);
    for level in 0..levels {
        let entries: Vec<u8> = (0..20).flat_map(|n| named(&format!("{n:02}"), below, level > 0)).collect();
        below = disc.entry(3, &entries, entries.len() as u64);
    }
    disc.root(below);
    disc
}

fn tag(id: u16) -> [u8; 16] {
    let mut tag = [0; 16];
    tag[..2].copy_from_slice(&id.to_le_bytes());
    tag
}

/// An extent (ECMA-167 4/14.14.1).
pub fn short_ad(length: usize, block: u32) -> [u8; 8] {
    let mut ad = [0; 8];
    ad[..4].copy_from_slice(&(length as u32).to_le_bytes());
    ad[4..].copy_from_slice(&block.to_le_bytes());
    ad
}

/// An extent of type 3: the descriptors go on in another place.
pub fn continued(length: usize, block: u32) -> [u8; 8] {
    short_ad(length | 3 << 30, block)
}

/// An allocation extent (4/14.5) with its descriptors, and with the CRC of all of it.
pub fn continuation(area: &[u8]) -> Vec<u8> {
    sealed([&tag(258)[..], &[0; 4], &(area.len() as u32).to_le_bytes(), area].concat())
}

/// A file entry (4/14.9). Its CRC is of all in front of its area, so that the identifiers of an embedded directory have theirs alone.
fn entry(kind: u8, area: &[u8], length: u64) -> Vec<u8> {
    let mut entry = vec![0; 176];
    entry[..16].copy_from_slice(&tag(261));
    entry[34] = kind;
    entry[56..64].copy_from_slice(&length.to_le_bytes());
    entry[172..].copy_from_slice(&(area.len() as u32).to_le_bytes());
    entry = sealed(entry);
    entry.extend_from_slice(area);
    entry
}

/// A file identifier (4/14.4) of a recorded name, with the CRC of all of it.
pub fn identifier(recorded: &[u8], block: u32, is_directory: bool) -> Vec<u8> {
    let mut whole = tag(257).to_vec();
    whole.extend([1, 0, u8::from(is_directory) * 2, recorded.len() as u8]);
    whole.extend((SECTOR as u32).to_le_bytes());
    whole.extend(block.to_le_bytes());
    whole.extend(PARTITION.to_le_bytes());
    whole.extend([0; 8]);
    whole.extend(recorded);
    whole.resize(whole.len().next_multiple_of(4), 0);
    sealed(whole)
}

/// The same by a name of ASCII.
pub fn named(name: &str, block: u32, is_directory: bool) -> Vec<u8> {
    identifier(&[b"\x08", name.as_bytes()].concat(), block, is_directory)
}

/// The characteristics of an entry that isn't listed.
pub const DELETED: u8 = 4;
pub const PARENT: u8 = 8;

/// An identifier with more characteristics.
pub fn marked(mut identifier: Vec<u8>, characteristics: u8) -> Vec<u8> {
    identifier[18] |= characteristics;
    sealed(identifier)
}
