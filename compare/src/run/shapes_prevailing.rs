//! Images with several descriptors of one kind, and the sequence numbers that say which of them counts where that is chosen.

use super::records::*;
use super::shapes_opening::{Shape, volume};

/// Rising, falling, equal, and at both ends of the numbers; of three the first, the middle and the last.
const NUMBERS: [&[u32]; 13] = [
    &[4, 5],
    &[5, 4],
    &[4, 4],
    &[0, u32::MAX],
    &[u32::MAX, 0],
    &[0, 0],
    &[0x0100_0000, 0x00ff_ffff],
    &[4, 5, 6],
    &[6, 5, 4],
    &[6, 4, 5],
    &[4, 6, 5],
    &[6, 6, 5],
    &[6, 5, 6],
];

/// The kinds, by where the usual sequence has their descriptor.
const KINDS: [(&str, usize); 3] = [("labels", 0), ("logical volumes", 1), ("partitions", 2)];

/// A descriptor with its number, and with something of its own to tell it by: a label, or a start or a block that is `by` beyond.
fn told(kind: usize, usual: &[u8], number: u32, by: u32) -> Vec<u8> {
    let mut b = usual.to_vec();
    put32(&mut b, 16, number);
    match kind {
        0 => b[24..56].copy_from_slice(&field(&name8(format!("DISC {by}").as_bytes()), 32)),
        1 => put32(&mut b, 252, u32::from_le_bytes(usual[252..256].try_into().unwrap()) + by),
        _ => put32(&mut b, 188, u32::from_le_bytes(usual[188..192].try_into().unwrap()) + by),
    }
    b
}

pub fn shapes() -> Vec<Shape> {
    let mut all = Vec::new();
    for numbers in NUMBERS {
        for (name, kind) in KINDS {
            // The one that leads to the file set descriptor is each in turn.
            for good in 0..numbers.len() {
                all.push(volume(&format!("{name} {numbers:?}, {good}"), |_, s| {
                    let usual = s.remove(kind);
                    let more = numbers.iter().enumerate().map(|(i, n)| told(kind, &usual, *n, (i as u32).abs_diff(good as u32)));
                    s.splice(kind..kind, more);
                }));
            }
        }
    }
    all.push(volume("numbers of one kind above another's", |_, s| {
        (put32(&mut s[0], 16, 9), put32(&mut s[1], 16, 1));
        let older = told(2, &s[2], 4, 1);
        put32(&mut s[2], 16, 5);
        s.insert(3, older);
    }));
    for (name, kind) in [("ruined", 0), ("of another block size", 1), ("of another partition", 2)] {
        all.push(volume(&format!("one with a higher number, {name}"), |_, s| {
            let mut other = told(kind, &s[kind], 7, 0);
            match kind {
                0 => other[4] ^= 1,
                1 => put32(&mut other, 212, 512),
                _ => put16(&mut other, 22, 8),
            }
            s.insert(0, other);
        }));
    }
    all.push(volume("one with a higher number behind the end", |_, s| {
        let other = told(0, &s[0], 7, 7);
        s.push(other);
    }));
    all
}
