//! Images for reads a sector at a time: continuations of several sectors, with a descriptor across each two of them.

use super::disc::Disc;
use super::random::Random;
use super::records::*;
use super::shapes_files::{NUMBER, blocks, closed, disc, raw};
use super::shapes_opening::Shape;

/// How many descriptors of a kind a continuation has: as many as its first sector holds, whole and not, and as many as two and more do. Of short_ads none stands
/// across two sectors; of long_ads half; of ext_ads 4, 12, 0, 8 and 16 bytes stand in the first to the fifth sector.
const COUNTS: [&[usize]; 3] = [&[253, 254, 506, 507], &[126, 127, 128, 254, 255], &[101, 102, 103, 203, 204, 306, 408, 409, 511]];

/// A file whose entry names a continuation of this area.
fn continued(d: &mut Disc, kind: u8, information: u64, area: &[u8]) {
    let whole = allocation_extent(area);
    let at = d.take(whole.len().div_ceil(2048) as u32);
    d.put_block(at, &whole);
    raw(d, kind, false, information, &descriptor(kind, whole.len() as u32, 3, at, NUMBER));
}

/// Extents of a few bytes; and the last of them, or one across two sectors, something else.
fn across(random: &mut Random, kind: u8) -> Shape {
    let mut d = disc();
    let at = blocks(&mut d, random, 1);
    let behind = d.take(1);
    d.put_block(behind, &allocation_extent(&descriptor(kind, 9, 0, at, NUMBER)));
    let size = descriptor(kind, 0, 0, 0, 0).len();
    for n in COUNTS[kind as usize] {
        let area: Vec<u8> = (0..*n).flat_map(|i| descriptor(kind, 1 + i as u32 % 5, 0, at, NUMBER)).collect();
        continued(&mut d, kind, 5000, &area);
        // The end, a continuation, a type that is refused, and a compressed ext_ad, the last of the first sector's and behind all.
        let mut compressed = descriptor(kind, 7, 0, at, NUMBER);
        compressed[size.min(8) - 4] ^= 1;
        for odd in [vec![0; size], descriptor(kind, 33, 3, behind, NUMBER), descriptor(kind, 6, 1, at, NUMBER), compressed] {
            for place in [(2048 - 24) / size, n - 1] {
                let mut changed = area.clone();
                changed.splice(place.min(n - 1) * size..(place.min(n - 1) + 1) * size, odd.clone());
                continued(&mut d, kind, 5000, &changed);
            }
        }
    }
    closed(&format!("descriptors across sectors, kind {kind}"), d)
}

pub fn shapes() -> Vec<Shape> {
    let mut random = Random::new(0x6163_726f);
    (0..3).map(|kind| across(&mut random, kind)).collect()
}
