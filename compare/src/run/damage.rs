//! Damage: bytes and fields changed, sectors swapped, dropped and repeated, images cut.

use super::disc::{ANCHOR, Disc};
use super::random::Random;
use super::records::mend;

/// The fields of a descriptor that a reader looks at: place and size.
fn fields(id: u16) -> &'static [(usize, usize)] {
    match id {
        1 => &[(0, 2), (24, 1), (25, 1), (55, 1)],
        2 => &[(16, 4), (20, 4), (24, 4), (28, 4)],
        5 => &[(0, 2), (22, 2), (188, 4), (192, 4)],
        6 => &[(0, 2), (84, 1), (211, 1), (212, 4), (248, 4), (252, 4), (256, 2)],
        256 => &[(400, 4), (404, 4), (408, 2), (410, 2)],
        257 => &[(18, 1), (18, 1), (19, 1), (20, 4), (24, 4), (28, 2), (36, 2), (38, 1), (39, 1), (40, 1)],
        258 => &[(16, 4), (20, 4), (24, 4), (28, 4), (32, 4), (36, 4), (40, 4)],
        261 => &[(34, 1), (56, 8), (168, 4), (172, 4), (176, 4), (180, 4), (184, 4), (188, 4), (192, 4), (196, 4), (200, 4)],
        266 => &[(34, 1), (56, 8), (208, 4), (212, 4), (216, 4), (220, 4), (224, 4), (228, 4), (232, 4), (236, 4), (240, 4)],
        _ => &[(0, 2), (2, 2), (5, 1)],
    }
}

/// Of a logical volume descriptor: the table's length, the number of maps, and fields of the first three.
const MAPS: [(usize, usize); 11] =
    [(264, 4), (264, 1), (268, 4), (268, 1), (440, 1), (441, 1), (442, 2), (444, 2), (446, 1), (450, 2), (456, 2)];

/// A field of a descriptor changed, with the tag's checksum mended, so that the change is reached.
fn field(random: &mut Random, disc: &mut Disc) {
    if disc.tags.is_empty() {
        return;
    }
    let at = *random.pick(&disc.tags);
    if at + 512 > disc.image.len() {
        return;
    }
    let id = u16::from_le_bytes([disc.image[at], disc.image[at + 1]]);
    let (offset, size) = match random.below(12) {
        // Any field of the tag, and any byte.
        0 => *random.pick(&[(0, 2), (2, 2), (5, 1), (6, 2), (8, 4), (12, 4)]),
        1 => (random.below(512), 1),
        // The maps, of a disc that is to be read through them.
        n if n % 2 == 0 && id == 6 && disc.wandering.is_some() => *random.pick(&MAPS),
        _ => *random.pick(fields(id)),
    };
    let now = &mut disc.image[at + offset..at + offset + size];
    let mut wide = [0; 8];
    wide[..size].copy_from_slice(now);
    let was = u64::from_le_bytes(wide);
    let v = match random.below(6) {
        0 => was.wrapping_add(1),
        1 => was.wrapping_sub(1),
        2 => was ^ 1 << random.below(size * 8),
        // A type on top of the length that was there.
        3 if size == 4 => was ^ (random.next() & 3) << 30,
        _ => random.odd(),
    };
    now.copy_from_slice(&v.to_le_bytes()[..size]);
    if !random.once_in(30) {
        mend(&mut disc.image[at..]);
    }
}

/// The sectors that hold something, for damage that is seen.
fn used(disc: &Disc) -> Vec<usize> {
    let mut all: Vec<usize> = disc.tags.iter().map(|t| t / 2048).collect();
    all.dedup();
    all
}

fn sectors(random: &mut Random, disc: &mut Disc) {
    let used = used(disc);
    let there = disc.image.len() / 2048;
    if used.is_empty() || there == 0 {
        return;
    }
    let (a, b) = (*random.pick(&used), if random.once_in(2) { *random.pick(&used) } else { random.below(there) });
    if a >= there || b >= there {
        return;
    }
    let (first, second) = (disc.image[a * 2048..][..2048].to_vec(), disc.image[b * 2048..][..2048].to_vec());
    match random.below(4) {
        0 => {
            disc.image[a * 2048..][..2048].copy_from_slice(&second);
            disc.image[b * 2048..][..2048].copy_from_slice(&first);
        }
        1 => disc.image[a * 2048..][..2048].fill(0),
        2 => disc.image[b * 2048..][..2048].copy_from_slice(&first),
        // A sector lost, and all behind it moved up.
        _ => {
            disc.image.drain(a * 2048..(a + 1) * 2048);
        }
    }
}

/// An image cut at a sector that holds something, or beside one.
fn cut(random: &mut Random, disc: &mut Disc) {
    let mut places = used(disc);
    places.extend([16, 17, 19, ANCHOR as usize, ANCHOR as usize + 1, disc.image.len() / 2048]);
    let s = *random.pick(&places) * 2048;
    let n = *random.pick(&[s, s + 1, s + 2047, s + 2048, s.saturating_sub(1)]);
    disc.image.resize(n, 0);
}

pub fn damage(random: &mut Random, disc: &mut Disc) {
    let times = *random.pick(&[1, 1, 1, 2, 3, 6]);
    for _ in 0..times {
        match random.below(20) {
            0 | 1 if !disc.image.is_empty() => {
                let at = if random.once_in(2) && !disc.tags.is_empty() {
                    *random.pick(&disc.tags) + random.below(300)
                } else {
                    random.below(disc.image.len())
                };
                if let Some(b) = disc.image.get_mut(at) {
                    *b = random.next() as u8;
                }
            }
            2 | 3 => sectors(random, disc),
            4 => cut(random, disc),
            _ => field(random, disc),
        }
    }
}
