//! Lists of paths, paths, and rows of lengths that change, over images that stand still.

use crate::flips::{Flip, Of};
use crate::stage::*;
use common::calls::Call;

pub fn all() -> Vec<Raced> {
    [lists, paths, shelves].iter().flat_map(|make| make()).collect()
}

/// An image whose subject has forty cues. Nothing of it is flipped.
fn image() -> Raced {
    let mut s = Stage::new();
    let cues = s.lay_cues(40);
    let subject = s.entry(0, &short(40 * CUE, cues), (40 * CUE) as u64);
    s.flipped("", subject, (subject, AREA), 4, 0)
}

/// Calls along one path, or one list, of which so many bytes change.
fn along(name: &str, calls: &[Call], path: &[u8], (at, width, other): (usize, usize, u64)) -> Raced {
    let flip = Flip::new(Of::Path, path, at, width, other);
    Raced { name: name.to_string(), calls: calls.to_vec(), flip, paths: vec![path.to_vec()], ..image() }
}

/// Seven paths. The number changes between the look that counts them and the one that reads them.
fn lists() -> Vec<Raced> {
    let list = b"FILE\0DIR/CUE 00005\0dir/none\0FILE\0DIR/CUE 00005\0dir/none\0dir/none";
    [
        ("the first zero of a list, or a letter", (4, 1, b'x'.into())),
        ("the last zero of a list, or a slash", (55, 1, b'/'.into())),
        ("a letter of a list's last path, or a zero", (60, 1, 0)),
        ("a letter of a list's second path, or another", (9, 1, b'x'.into())),
        ("the first eight bytes of a list, or zeros", (0, 8, 0)),
        ("the last eight bytes of a list, or zeros", (56, 8, 0)),
    ]
    .map(|(name, flip)| along(name, &[Call::ReadAll], list, flip))
    .into()
}

/// One path: its components change in number and in name.
fn paths() -> Vec<Raced> {
    let slashes = u64::from_le_bytes([b'/'; 8]);
    [
        ("a slash of a path, or a letter", (3, 1, b'x'.into())),
        ("a letter of a path, or a slash", (5, 1, b'/'.into())),
        ("the last letter of a path, or a zero", (12, 1, 0)),
        ("the first eight bytes of a path, or slashes", (0, 8, slashes)),
        ("the last eight bytes of a path, or slashes", (8, 8, slashes)),
    ]
    .map(|(name, flip)| along(name, &[Call::Lookup, Call::Failed, Call::ReadPath], b"DIR/CUE 00005///", flip))
    .into()
}

/// Two images on a shelf, which has no byte behind them.
fn shelves() -> Vec<Raced> {
    let n = image().image.len() as u64;
    [
        ("the first length of a shelf, or 0", 0, 0),
        ("the first length of a shelf, or all of it", 0, 2 * n),
        ("the last length of a shelf, or a byte more", 1, n + 1),
        ("the last length of a shelf, or 2^64 - 1", 1, u64::MAX),
    ]
    .map(|(name, i, other)| {
        let raced = image();
        let (shelf, image) = (vec![n; 2], raced.image.repeat(2));
        Raced { name: name.to_string(), calls: vec![Call::Survey], flip: Flip::of_length(&shelf, i, other), image, shelf, ..raced }
    })
    .into()
}
