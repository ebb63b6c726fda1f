//! Memory to be lent, between pages that nobody may touch.

use std::collections::BTreeMap;
use std::ffi::{c_int, c_void};
use std::ptr;

const PAGE: usize = 4096;

/// What is kept free on either side: more than any of these images has. A wrong write needn't begin where the lent memory ends: it may be off
/// by the length of an extent.
const GUARD: usize = 16 << 20;

const PROT_NONE: c_int = 0;
const PROT_READ: c_int = 1;
const PROT_WRITE: c_int = 2;
const MAP_PRIVATE: c_int = 2;
const MAP_ANONYMOUS: c_int = 32;

unsafe extern "C" {
    fn mmap(at: *mut c_void, length: usize, protection: c_int, flags: c_int, file: c_int, offset: i64) -> *mut c_void;
    fn mprotect(at: *mut c_void, length: usize, protection: c_int) -> c_int;
}

/// Pages between guard pages. They stay mapped for good.
fn guarded(pages: usize) -> &'static mut [u8] {
    let length = pages * PAGE;
    // SAFETY: a new map where the system puts it, of which the pages between the guards may be touched; nobody else knows of it.
    unsafe {
        let at = mmap(ptr::null_mut(), length + 2 * GUARD, PROT_NONE, MAP_PRIVATE | MAP_ANONYMOUS, -1, 0);
        assert!(at as isize != -1, "no memory of {length} bytes");
        let at = at.byte_add(GUARD);
        assert_eq!(mprotect(at, length, PROT_READ | PROT_WRITE), 0);
        std::slice::from_raw_parts_mut(at.cast(), length)
    }
}

/// What lent memory comes full of: never 0, which a call may well write.
fn pattern(i: usize) -> u8 {
    ((i * 131 + (i >> 8)) as u8) | 1
}

/// Which guard a piece is flush with.
#[derive(Clone, Copy, PartialEq, Eq)]
pub enum Side {
    Left,
    Right,
}

/// Guarded memory full of the pattern, in as many pages as are asked for.
#[derive(Default)]
pub struct Store {
    regions: BTreeMap<usize, &'static mut [u8]>,
    /// The pattern, as long as the longest region.
    like: Vec<u8>,
}

impl Store {
    /// A piece of so many bytes, in as few pages as hold it.
    pub fn piece(&mut self, length: usize, side: Side) -> Piece<'_> {
        let pages = length.div_ceil(PAGE).max(1);
        self.like.extend((self.like.len()..pages * PAGE).map(pattern));
        let like = &self.like[..pages * PAGE];
        let region = self.regions.entry(pages).or_insert_with(|| {
            let region = guarded(pages);
            region.copy_from_slice(like);
            region
        });
        let from = if side == Side::Left { 0 } else { region.len() - length };
        Piece { region, like, from, length }
    }
}

/// The first bytes behind one guard, or the last before the other. It has to be left as it came, full of the pattern.
pub struct Piece<'s> {
    region: &'s mut [u8],
    like: &'s [u8],
    from: usize,
    pub length: usize,
}

impl Piece<'_> {
    pub fn bytes(&mut self) -> &mut [u8] {
        &mut self.region[self.from..self.from + self.length]
    }

    /// Where it starts; that is in the guard itself where it is empty and stands on the right.
    pub fn at(&mut self) -> *mut u8 {
        self.bytes().as_mut_ptr()
    }

    /// The first place that isn't as it came, counted from the piece's start, where the piece's first `front` bytes don't count.
    pub fn touched(&self, front: usize) -> Option<isize> {
        let (region, like, end) = (&*self.region, self.like, self.from + front);
        if region[..self.from] == like[..self.from] && region[end..] == like[end..] {
            return None;
        }
        let place = (0..self.from).chain(end..region.len()).find(|i| region[*i] != like[*i]);
        place.map(|i| i as isize - self.from as isize)
    }

    /// How many words of so many bytes stand in front of the first that is as it came.
    pub fn words_written(&self, width: usize) -> usize {
        let piece = self.from..self.from + self.length;
        let (words, like) = (self.region[piece.clone()].chunks_exact(width), self.like[piece].chunks_exact(width));
        words.zip(like).take_while(|(word, like)| word != like).count()
    }

    /// Makes its first `front` bytes as they came.
    pub fn restore(&mut self, front: usize) {
        let to = self.from..self.from + front;
        self.region[to.clone()].copy_from_slice(&self.like[to]);
    }
}
