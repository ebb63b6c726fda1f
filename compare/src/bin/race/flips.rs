//! A place in lent memory that another thread keeps writing to.

use std::hint::spin_loop;
use std::sync::atomic::Ordering::Relaxed;
use std::sync::atomic::{AtomicBool, AtomicU8, AtomicU16, AtomicU32, AtomicU64};

/// What a flip is in: the image, the path or list of paths (of the writer the names), or the row of lengths.
#[derive(Clone, Copy, PartialEq, Eq)]
pub enum Of {
    Image,
    Path,
    Lengths,
}

/// So many bytes (1, 2, 4 or 8) that have one of two values, little-endian.
#[derive(Clone, Copy)]
pub struct Flip {
    pub of: Of,
    pub at: usize,
    pub width: usize,
    pub values: [u64; 2],
}

impl Flip {
    /// Between what the bytes hold there and another value.
    pub fn new(of: Of, bytes: &[u8], at: usize, width: usize, other: u64) -> Flip {
        let held = bytes[at..at + width].iter().rev().fold(0, |n, b| n << 8 | u64::from(*b));
        assert!(at.is_multiple_of(width) && bytes.len().is_multiple_of(width) && held != other, "no flip at {at}");
        Flip { of, at, width, values: [held, other] }
    }

    /// Between a length of a row and another.
    pub fn of_length(lengths: &[u64], i: usize, other: u64) -> Flip {
        assert!(lengths[i] != other, "no flip of length {i}");
        Flip { of: Of::Lengths, at: 8 * i, width: 8, values: [lengths[i], other] }
    }

    /// Writes one of the two values into bytes that stand still.
    pub fn put(&self, bytes: &mut [u8], which: usize) {
        bytes[self.at..self.at + self.width].copy_from_slice(&self.values[which].to_le_bytes()[..self.width]);
    }
}

/// A thread's work: one value and the other, each with one store, until it is told to stop. `start` is where the bytes start, and `pause`
/// how long a value stands, in turns of an empty loop. Gives the number of stores.
///
/// # Safety
///
/// The bytes are there until this returns, are aligned as the flip is wide, and no Rust code looks at them. The archive does: that is what is
/// tried.
pub unsafe fn keep_flipping(flip: Flip, start: *mut u8, pause: u32, stop: &AtomicBool) -> u64 {
    // SAFETY: the caller's word.
    unsafe {
        let at = start.add(flip.at);
        let [a, b] = flip.values;
        match flip.width {
            1 => until(stop, pause, |even| AtomicU8::from_ptr(at).store(if even { a } else { b } as u8, Relaxed)),
            2 => until(stop, pause, |even| AtomicU16::from_ptr(at.cast()).store(if even { a } else { b } as u16, Relaxed)),
            4 => until(stop, pause, |even| AtomicU32::from_ptr(at.cast()).store(if even { a } else { b } as u32, Relaxed)),
            _ => until(stop, pause, |even| AtomicU64::from_ptr(at.cast()).store(if even { a } else { b }, Relaxed)),
        }
    }
}

/// Ends with the first value in place.
fn until(stop: &AtomicBool, pause: u32, store: impl Fn(bool)) -> u64 {
    let mut stores = 0;
    while !stop.load(Relaxed) {
        for even in [false, true] {
            store(even);
            (0..pause).for_each(|_| spin_loop());
        }
        stores += 2;
    }
    stores
}
