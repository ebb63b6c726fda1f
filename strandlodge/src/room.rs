//! Memory that is lent to a call, and more of it if too little memory was the only problem.

use crate::answer::{Answered, Refusal};

/// What is lent at first, in bytes. The cues and directories of a show fit.
pub const FIRST: usize = 64 << 10;

/// The most work space for a directory: some five million entries. Each call clears all of it, so a bad disc must not
/// ask for more.
pub const MOST_DIRECTORY: usize = 256 << 20;

/// The longest listing of a directory of this many bytes (docs/RULES.md, 4.9 and 8.9).
///
/// A name recorded in n bytes, the first of which is its compression id, has at most 2 (n - 1) bytes of UTF-8: one or
/// two for each byte, or up to three for each pair. Its record has 21 more. Its identifier has 38 + n bytes, rounded up
/// to a multiple of 4; the last one may lack the rounding. Of all n up to 255, the record is longest compared with its
/// identifier at 254: 527 bytes for 292.
pub fn most_listed(directory: usize) -> usize {
    directory.next_multiple_of(4).saturating_mul(527) / 292
}

/// The most for the records of a show: some six million entries.
pub const MOST_SHOW: usize = 256 << 20;

/// The number of paths read by one call, with `FIRST` bytes of output lent for each: a list of any length takes no more
/// than 64 MiB besides its results.
pub const AT_ONCE: usize = 1024;

/// What may be lent for a file of any image.
pub const SOME_FILE: usize = 256 << 20;

/// The most for a file of this image. Only a file whose extents overlap is longer than its disc.
pub fn most_file(image: &[u8]) -> usize {
    image.len().max(SOME_FILE)
}

/// An empty vector with room for exactly this many bytes; `None` if that is more than `most`, or can't be allocated.
pub fn exactly(bytes: u64, most: usize) -> Option<Vec<u8>> {
    let bytes = usize::try_from(bytes).ok().filter(|bytes| *bytes <= most)?;
    let mut room = Vec::new();
    room.try_reserve_exact(bytes).ok()?;
    Some(room)
}

/// An empty vector whose spare room is lent.
pub struct Room<T> {
    pub lent: Vec<T>,
    most: usize,
}

impl<T> Room<T> {
    /// Room for `first` items, which may grow to `most`. If it can't be allocated there is none, and the call itself
    /// refuses.
    pub fn new(first: usize, most: usize) -> Room<T> {
        let mut room = Room { lent: Vec::new(), most };
        room.reach(first);
        room
    }

    /// For a call that takes none.
    pub fn none() -> Room<T> {
        Room { lent: Vec::new(), most: 0 }
    }

    /// Doubles the room; false if that is more than the most, or can't be allocated.
    pub fn double(&mut self) -> bool {
        let now = self.lent.capacity();
        self.reach(now.saturating_mul(2))
    }

    /// Makes room for `items`, or for the most if that is less; false if that is no more than before, or can't be
    /// allocated.
    pub fn reach(&mut self, items: usize) -> bool {
        let items = items.min(self.most);
        if items <= self.lent.capacity() {
            return false;
        }
        // What there was is given back first: nothing stands in it.
        self.lent = Vec::new();
        self.lent.try_reserve_exact(items).is_ok()
    }
}

/// Makes a call, and repeats it with twice the room if it was refused for lack of room. A refused call has written
/// nothing.
pub fn retry<T, R>(out: &mut Room<T>, work: &mut Room<u8>, mut call: impl FnMut(&mut Vec<T>, &mut Vec<u8>) -> Answered<R>) -> Answered<R> {
    loop {
        let answer = call(&mut out.lent, &mut work.lent);
        let grown = match answer.as_ref().err().map(|refused| refused.why) {
            Some(Refusal::NoRoom | Refusal::NoSlot) => out.double(),
            Some(Refusal::NoWork) => work.double(),
            _ => false,
        };
        if !grown {
            return answer;
        }
    }
}

#[cfg(test)]
mod tests {
    use super::*;

    /// Each length of a name, alone and after another, the last without its rounding. Bytes for other uses only make an
    /// identifier longer.
    #[test]
    fn a_listing_has_no_more() {
        let name = |n: usize| 2 * n.saturating_sub(1);
        for n in 0..=255 {
            assert!(21 + name(n) <= most_listed(38 + n), "{n}");
            for m in 0..=255 {
                assert!(42 + name(n) + name(m) <= most_listed((38 + n).next_multiple_of(4) + 38 + m), "{n} {m}");
            }
        }
        assert_eq!((most_listed(0), most_listed(292), most_listed(5 * 292)), (0, 527, 5 * 527));
    }

    #[test]
    fn what_is_too_much_is_not_had() {
        assert_eq!(exactly(5, 5).map(|room| room.capacity()), Some(5));
        assert_eq!((exactly(6, 5), exactly(u64::MAX, usize::MAX), exactly(0, 0)), (None, None, Some(Vec::new())));
    }
}
