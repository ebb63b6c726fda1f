//! What is asked of raw records: bytes at random, records that are good and then damaged, and records to be encoded.

use super::random::Random;
use super::raw::{RawAsk, RawCall};
use super::raw_expect::expected;
use super::records::{crc, mend, put16, put32};
use crate::udf::within;

pub struct RawCase {
    pub ask: RawAsk,
    pub expected: Vec<u8>,
    /// As in `Expected`.
    pub by_the_rule: bool,
}

impl RawCase {
    /// The answer number; encoding is done.
    pub fn number(&self) -> u64 {
        match self.ask.call.parses() {
            Some(_) => 0,
            None => u64::from_le_bytes(self.expected[..8].try_into().unwrap()),
        }
    }
}

/// So many of each call are asked at a time: about an eighth of a run goes to raw records.
const EACH: usize = 4;

pub fn batch(random: &mut Random) -> Vec<RawCase> {
    let mut all = Vec::new();
    for call in RawCall::ALL.iter().flat_map(|c| [*c; EACH]) {
        let Some(parse) = call.parses() else {
            let input = match call {
                RawCall::TagInPlace => placed(random),
                RawCall::TagBody => summed(random),
                RawCall::Crc => row(random),
                _ => bytes(random, call),
            };
            all.push(case(random, call, input));
            continue;
        };
        // What was encoded is parsed too.
        let input = record(random, call);
        let encoding = case(random, call, input);
        all.push(case(random, parse, encoding.expected.clone()));
        all.push(encoding);
    }
    all
}

fn case(random: &mut Random, call: RawCall, input: Vec<u8>) -> RawCase {
    let room = if call.is_decode() { room(random, call, &input) } else { 0 };
    let (expected, by_the_rule) = within::asked(|| expected(call, &input, room));
    RawCase { ask: RawAsk { call, input, room, salt: random.next() as u8 }, expected, by_the_rule }
}

/// Room for a name: to spare, exactly enough, a byte short, none, or any.
fn room(random: &mut Random, call: RawCall, input: &[u8]) -> usize {
    let name = within::asked(|| expected(call, input, usize::MAX)).0.len() - 16;
    match random.below(6) {
        0 | 1 => name + 1 + random.below(40),
        2 => name,
        3 => name.saturating_sub(1),
        4 => 0,
        _ => random.below(name + 2),
    }
}

/// The ids that the original's tags can hold, and others.
const LISTED: [u16; 20] = [1, 2, 3, 4, 5, 6, 7, 8, 9, 256, 257, 258, 259, 260, 261, 262, 263, 264, 265, 266];
const UNLISTED: [u16; 6] = [0, 10, 255, 267, 512, 65535];

/// A record to be encoded, flat: all its bits at random, or bytes that are all zeros or all ones. A tag's id is one that the original can
/// hold.
fn record(random: &mut Random, call: RawCall) -> Vec<u8> {
    use RawCall::*;
    let size = match call {
        EncodeExtentAd => 8,
        EncodeShortAd => 9,
        EncodeLbAddr => 6,
        EncodeLongAd => 17,
        EncodeExtAd => 21,
        EncodeTag => 14,
        _ => 22,
    };
    let mut b = random.bytes(size);
    if random.once_in(3) {
        b.iter_mut().for_each(|x| *x = *random.pick(&[0, 0xff, 0x3f, 0x40, *x]));
    }
    if matches!(call, EncodeTag | EncodeAed) {
        let id = if call == EncodeAed && !random.once_in(3) { 258 } else { *random.pick(&LISTED) };
        put16(&mut b, 0, id);
    }
    b
}

/// A tag, listed or not, with a sector and a block: each is the tag's location, or beside it, or equal in its low bits, or any.
fn placed(random: &mut Random) -> Vec<u8> {
    let mut b = random.bytes(14);
    let id = if random.once_in(4) { *random.pick(&UNLISTED) } else { *random.pick(&LISTED) };
    put16(&mut b, 0, id);
    let location = u64::from(u32::from_le_bytes(b[10..].try_into().unwrap()));
    let beside = |random: &mut Random| match random.below(8) {
        0..=2 => location,
        3 => location.wrapping_add(1),
        4 => location ^ 1 << 16,
        5 => location ^ 1 << 31,
        6 => location | 1 << 32,
        _ => random.odd(),
    };
    let (sector, block) = (beside(random), beside(random) as u32);
    b.extend(sector.to_le_bytes());
    b.extend(block.to_le_bytes());
    b
}

/// Bytes to be summed: none, few, and more than a sector, at random or nearly all the same.
fn row(random: &mut Random) -> Vec<u8> {
    let n = *random.pick(&[0, 1, 2, 255, 256, 257, 2031, 2032, 2033, 4080]);
    let n = if random.once_in(3) { n } else { random.below(600) };
    let mut b = if random.once_in(4) { vec![*random.pick(&[0, 0xff]); n] } else { random.bytes(n) };
    if let Some(b) = b.first_mut().filter(|_| random.once_in(2)) {
        *b = 1 << random.below(8);
    }
    b
}

/// A tag, flat, with the bytes at hand behind it: most have its CRC, some have a bit of it, of them or of the CRC length changed, and some end
/// where it does, a byte before, or inside the tag.
fn summed(random: &mut Random) -> Vec<u8> {
    let body = row(random);
    let length = if random.once_in(3) { random.below(body.len() + 1) } else { body.len() };
    let mut tag = random.bytes(14);
    put16(&mut tag, 6, crc(&body[..length]));
    put16(&mut tag, 8, length as u16);
    let mut hand = [random.bytes(16), body].concat();
    match random.below(8) {
        0 => put16(&mut tag, 8, (length as u16).wrapping_add(*random.pick(&[1, u16::MAX]))),
        1 => tag[6 + random.below(2)] ^= 1 << random.below(8),
        2 => hand.truncate((16 + length).saturating_sub(1)),
        3 => hand.truncate(random.below(17)),
        4 => {
            let at = random.below(hand.len());
            hand[at] ^= 1 << random.below(8);
        }
        _ => {}
    }
    tag.extend(hand);
    tag
}

/// Bytes to be parsed or decoded: half of them at random, half good and then damaged.
fn bytes(random: &mut Random, call: RawCall) -> Vec<u8> {
    if random.once_in(2) {
        let size = good(random, call).len();
        let n = match random.below(3) {
            0 => random.below(size + 9),
            1 => (size + random.below(3)).saturating_sub(1),
            _ => size,
        };
        return random.bytes(n);
    }
    let mut b = good(random, call);
    damage(random, &mut b, call.has_tag());
    b
}

/// Half of the time nothing; else a byte changed, with the tag's checksum mended or not, or bytes cut off or added.
fn damage(random: &mut Random, b: &mut Vec<u8>, has_tag: bool) {
    if b.is_empty() {
        return;
    }
    let at = random.below(b.len());
    match random.below(12) {
        0 => b[at] = random.next() as u8,
        1 => b[at] ^= 1 << random.below(8),
        2 => b.truncate(at),
        3 => {
            b.pop();
        }
        4 => {
            let n = random.below(9);
            b.extend(random.bytes(n));
        }
        5 if has_tag => b[at % 16] ^= 1 << random.below(8),
        _ => return,
    }
    if has_tag && b.len() >= 16 && random.once_in(2) {
        mend(b);
    }
}

/// Bytes in which numbers are odd ones, such as those near a power of two.
fn words(random: &mut Random, n: usize) -> Vec<u8> {
    let mut b: Vec<u8> = (0..n.div_ceil(4)).flat_map(|_| (random.odd() as u32).to_le_bytes()).collect();
    b.truncate(n);
    b
}

/// A descriptor with a good tag, odd numbers behind it, and mostly the right id.
fn tagged(random: &mut Random, id: u16, size: usize) -> Vec<u8> {
    let mut b = words(random, size);
    let id = match random.below(12) {
        0 => *random.pick(&LISTED),
        1 => *random.pick(&UNLISTED),
        _ => id,
    };
    put16(&mut b, 0, id);
    b[5] = 0;
    mend(&mut b);
    b
}

/// A recorded name of up to so many bytes: its id, and behind it units that are often zero, surrogates, or beside them.
fn dstring(random: &mut Random, most: usize) -> Vec<u8> {
    let n = length(random, most);
    let mut b = random.bytes(n);
    let Some((id, body)) = b.split_first_mut() else {
        return b;
    };
    *id = match random.below(10) {
        0 => *random.pick(&[7, 9, 15, 17, 253, 254, 255, *id]),
        1 => 0,
        n if n < 5 => 8,
        _ => 16,
    };
    for (i, x) in body.iter_mut().enumerate() {
        let is_high = *id == 16 && i % 2 == 0;
        match random.below(if is_high { 3 } else { 24 }) {
            0 if is_high => *x = *random.pick(&[0xd7, 0xd8, 0xdb, 0xdc, 0xdf, 0xe0]),
            1 if is_high => *x = *random.pick(&[0, 0, 7, 8]),
            0 => *x = *random.pick(&[0, 0x7f, 0x80, 0xff]),
            _ => {}
        }
    }
    // An odd number of bytes behind id 16 is refused: most have an even one.
    if *id == 16 && body.len() % 2 == 1 && !random.once_in(4) {
        b.pop();
    }
    b
}

/// Up to so many, and often few.
fn length(random: &mut Random, most: usize) -> usize {
    let most = if random.once_in(2) { most.min(12) } else { most };
    random.below(most + 1)
}

/// A d-string field of so many bytes. Its last byte is mostly the length of the d-string in it, or the field's, or beside that.
fn field(random: &mut Random, size: usize) -> Vec<u8> {
    if size == 0 {
        return Vec::new();
    }
    let name = dstring(random, (size - 1).min(255));
    let mut b = random.bytes(size);
    b[..name.len()].copy_from_slice(&name);
    b[size - 1] = match random.below(12) {
        0 => (size - 1) as u8,
        1 => size as u8,
        2 => (size + 1) as u8,
        3 => random.next() as u8,
        _ => name.len() as u8,
    };
    b
}

/// An entry of a file, with attributes and an area, and lengths that are mostly theirs.
fn entry(random: &mut Random) -> Vec<u8> {
    let (id, prefix) = *random.pick(&[(261, 176), (266, 216)]);
    let (attributes, area) = (random.below(30), random.below(100));
    let mut b = tagged(random, id, prefix + attributes + area);
    let kinds = if random.once_in(6) { 8 } else { 4 };
    let kind = random.below(kinds) as u16;
    put16(&mut b, 34, (random.next() as u16) << 3 | kind);
    put32(&mut b, prefix - 8, attributes as u32);
    put32(&mut b, prefix - 4, area as u32);
    match random.below(12) {
        0 => put32(&mut b, prefix - 8, random.odd() as u32),
        1 => put32(&mut b, prefix - 4, random.odd() as u32),
        2 => put32(&mut b, prefix - 4, area as u32 + 1),
        _ => {}
    }
    // Most areas are as they come, which an area of ext_ads rarely is read with: some are empty.
    if random.once_in(3) {
        b[prefix + attributes..].fill(0);
    }
    let cut = if random.once_in(8) { random.below(50) } else { 0 };
    b.truncate(b.len() - cut);
    b
}

/// An entry of a directory, with lengths that are mostly its own.
fn identifier(random: &mut Random) -> Vec<u8> {
    let (name, used) = (dstring(random, 255), random.below(20));
    let mut b = tagged(random, 257, 38 + used + name.len());
    b[19] = name.len() as u8;
    put16(&mut b, 36, used as u16);
    b[38 + used..].copy_from_slice(&name);
    match random.below(12) {
        0 => b[19] = random.next() as u8,
        1 => b[19] = b[19].wrapping_add(1),
        2 => put16(&mut b, 36, random.odd() as u16),
        _ => {}
    }
    let more = random.below(6);
    b.extend(random.bytes(more));
    b
}

/// Bytes that are mostly parsed.
fn good(random: &mut Random, call: RawCall) -> Vec<u8> {
    use RawCall::*;
    let mut b = match call {
        ParseExtentAd | ParseShortAd => words(random, 8),
        ParseLbAddr => words(random, 6),
        ParseLongAd => words(random, 16),
        ParseExtAd | ParseIcbTag => words(random, 20),
        ParseTag => {
            let id = *random.pick(&LISTED);
            tagged(random, id, 16)
        }
        ParseAed => tagged(random, 258, 24),
        ParseAnchor => tagged(random, 2, 32),
        ParsePrimaryVolume => tagged(random, 1, 56),
        ParsePartition => tagged(random, 5, 196),
        ParseLogicalVolume => tagged(random, 6, 440),
        ParseFileSet => tagged(random, 256, 416),
        ParseFileEntry => entry(random),
        ParseFileIdentifier => identifier(random),
        DecodeDstring => dstring(random, 300),
        _ => {
            let size = *random.pick(&[0, 1, 2, 3, 8, 32, 32, 128, 128, 255, 256, 257, 300]);
            field(random, size)
        }
    };
    match call {
        ParsePrimaryVolume => b[24..56].copy_from_slice(&field(random, 32)),
        ParseLogicalVolume => b[84..212].copy_from_slice(&field(random, 128)),
        _ => {}
    }
    b
}
