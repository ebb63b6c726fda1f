//! The records of a disc, written: what stands at which offset is said here apart from both readers.

use crate::calls::Icb;

pub fn put16(b: &mut [u8], at: usize, v: u16) {
    b[at..at + 2].copy_from_slice(&v.to_le_bytes());
}

pub fn put32(b: &mut [u8], at: usize, v: u32) {
    b[at..at + 4].copy_from_slice(&v.to_le_bytes());
}

pub fn put64(b: &mut [u8], at: usize, v: u64) {
    b[at..at + 8].copy_from_slice(&v.to_le_bytes());
}

/// Makes the checksum of the tag at the front right again.
pub fn mend(b: &mut [u8]) {
    b[4] = 0;
    b[4] = b[..16].iter().fold(0, |sum, x| sum.wrapping_add(*x));
}

/// The CRC of a body (ECMA-167 3/7.2.6), a bit at a time.
pub fn crc(body: &[u8]) -> u16 {
    let bit = |register: u16, _| register << 1 ^ if register >> 15 == 1 { 0x1021 } else { 0 };
    body.iter().fold(0, |register, byte| (0..8).fold(register ^ u16::from(*byte) << 8, bit))
}

/// Gives the tag at the front the CRC of so many bytes behind it, and its checksum.
pub fn seal(whole: &mut [u8], length: usize) {
    let crc = crc(&whole[16..16 + length]);
    put16(whole, 8, crc);
    put16(whole, 10, length as u16);
    mend(whole);
}

/// A descriptor of so many bytes, zero behind its tag.
pub fn tagged(id: u16, size: usize) -> Vec<u8> {
    let mut b = vec![0; size];
    put16(&mut b, 0, id);
    put16(&mut b, 2, 3);
    put16(&mut b, 6, 1);
    mend(&mut b);
    b
}

/// A d-string field: the recorded name in front, its length in the last byte.
pub fn field(recorded: &[u8], size: usize) -> Vec<u8> {
    let mut b = vec![0; size];
    let n = recorded.len().min(size - 1);
    b[..n].copy_from_slice(&recorded[..n]);
    b[size - 1] = n as u8;
    b
}

pub fn name8(text: &[u8]) -> Vec<u8> {
    [&[8], text].concat()
}

pub fn name16(units: &[u16]) -> Vec<u8> {
    let mut b = vec![16];
    units.iter().for_each(|u| b.extend(u.to_be_bytes()));
    b
}

/// What a recorded name says, for the paths that are asked.
pub fn spoken(recorded: &[u8]) -> String {
    match recorded.split_first() {
        Some((8, text)) => text.iter().take_while(|b| **b != 0).map(|b| *b as char).collect(),
        Some((16, pairs)) => {
            let units = pairs.chunks_exact(2).map(|p| u16::from_be_bytes([p[0], p[1]]));
            units.take_while(|u| *u != 0).filter_map(|u| char::from_u32(u as u32)).collect()
        }
        _ => String::new(),
    }
}

/// An anchor: length and place of the main and the reserve sequence.
pub fn anchor(main: (u32, u32), reserve: (u32, u32)) -> Vec<u8> {
    let mut b = tagged(2, 512);
    put32(&mut b, 16, main.0);
    put32(&mut b, 20, main.1);
    put32(&mut b, 24, reserve.0);
    put32(&mut b, 28, reserve.1);
    b
}

/// A primary volume descriptor with a label's field.
pub fn primary(label: &[u8]) -> Vec<u8> {
    let mut b = tagged(1, 512);
    b[24..56].copy_from_slice(label);
    b
}

pub fn partition(number: u16, start: u32, length: u32) -> Vec<u8> {
    let mut b = tagged(5, 512);
    put16(&mut b, 22, number);
    put32(&mut b, 188, start);
    put32(&mut b, 192, length);
    b
}

pub fn logical(label: &[u8], block_size: u32, file_set: Icb) -> Vec<u8> {
    let mut b = tagged(6, 512);
    b[84..212].copy_from_slice(label);
    put32(&mut b, 212, block_size);
    b[248..264].copy_from_slice(&file_set.recorded());
    b
}

/// A partition map of type 1: volume sequence number and partition number.
pub fn map(volume: u16, number: u16) -> Vec<u8> {
    [&[1, 6][..], &volume.to_le_bytes(), &number.to_le_bytes()].concat()
}

/// A logical volume descriptor with so many maps, and a table of them.
pub fn mapped(mut logical: Vec<u8>, maps: u32, table: &[u8]) -> Vec<u8> {
    logical.resize(logical.len().max(440 + table.len()), 0);
    put32(&mut logical, 264, table.len() as u32);
    put32(&mut logical, 268, maps);
    logical[440..440 + table.len()].copy_from_slice(table);
    logical
}

pub fn file_set(root: Icb) -> Vec<u8> {
    let mut b = tagged(256, 512);
    b[400..416].copy_from_slice(&root.recorded());
    b
}

/// A sector of the recognition sequence.
pub fn recognition(id: &[u8; 5]) -> Vec<u8> {
    [&[0], &id[..], &[1]].concat()
}

/// An allocation descriptor of a kind: 0 short, 1 long, 2 ext.
pub fn descriptor(kind: u8, length: u32, extent_type: u8, block: u32, partition: u16) -> Vec<u8> {
    let raw = length & 0x3fff_ffff | (extent_type as u32) << 30;
    let mut b = raw.to_le_bytes().to_vec();
    if kind == 2 {
        b.extend(length.to_le_bytes());
        b.extend(length.to_le_bytes());
    }
    b.extend(block.to_le_bytes());
    match kind {
        0 => {}
        1 => b.extend([&partition.to_le_bytes()[..], &[0; 6]].concat()),
        _ => b.extend([&partition.to_le_bytes()[..], &[0; 2]].concat()),
    }
    b
}

/// An ext_ad whose three lengths are told apart.
pub fn ext_ad(stored: u32, recorded: u32, information: u32, block: u32, partition: u16) -> Vec<u8> {
    let mut b = descriptor(2, stored, 0, block, partition);
    put32(&mut b, 4, recorded);
    put32(&mut b, 8, information);
    b
}

pub fn descriptor_size(kind: u8) -> usize {
    [8, 16, 20][kind as usize]
}

/// A file entry, or an extended one.
pub struct Entry<'a> {
    pub extended: bool,
    pub flags: u16,
    pub information: u64,
    pub attributes: usize,
    pub area: &'a [u8],
}

impl Entry<'_> {
    pub fn prefix(extended: bool) -> usize {
        if extended { 216 } else { 176 }
    }

    pub fn bytes(&self) -> Vec<u8> {
        let prefix = Entry::prefix(self.extended);
        let mut b = tagged(if self.extended { 266 } else { 261 }, prefix + self.attributes);
        b[27] = 5;
        put16(&mut b, 34, self.flags);
        put64(&mut b, 56, self.information);
        put32(&mut b, prefix - 8, self.attributes as u32);
        put32(&mut b, prefix - 4, self.area.len() as u32);
        b.extend(self.area);
        b
    }
}

/// An allocation extent: the header, and an area behind it.
pub fn allocation_extent(area: &[u8]) -> Vec<u8> {
    let mut b = tagged(258, 24);
    put32(&mut b, 20, area.len() as u32);
    b.extend(area);
    b
}

pub const DIRECTORY: u8 = 2;
pub const DELETED: u8 = 4;
pub const PARENT: u8 = 8;

/// An entry of a directory.
#[derive(Clone)]
pub struct Item {
    pub recorded: Vec<u8>,
    pub icb: Icb,
    pub characteristics: u8,
    pub uses: usize,
}

impl Item {
    pub fn new(recorded: Vec<u8>, icb: Icb, characteristics: u8) -> Item {
        Item { recorded, icb, characteristics, uses: 0 }
    }

    pub fn bytes(&self) -> Vec<u8> {
        let mut b = tagged(257, 38);
        put16(&mut b, 16, 1);
        b[18] = self.characteristics;
        b[19] = self.recorded.len() as u8;
        b[20..36].copy_from_slice(&self.icb.recorded());
        put16(&mut b, 36, self.uses as u16);
        b.extend(std::iter::repeat_n(0x5a, self.uses));
        b.extend(&self.recorded);
        b.resize(b.len().div_ceil(4) * 4, 0);
        b
    }
}
