//! Memory that is lent, as port.c lends it.

pub const GUARD: usize = 64;

fn pattern(i: usize, salt: u8) -> u8 {
    ((i * 131 + (i >> 8)) as u8).wrapping_add(salt) | 1
}

/// A buffer to be lent, full of the pattern, with guards in front and behind. Numbers of 64 bits may be stored in it.
pub struct Lending {
    store: Vec<u64>,
    pub length: usize,
    salt: u8,
}

impl Lending {
    pub fn new(length: usize, salt: u8) -> Lending {
        let mut l = Lending { store: vec![0; (length + 2 * GUARD).div_ceil(8)], length, salt };
        let n = length + 2 * GUARD;
        l.bytes()[..n].iter_mut().enumerate().for_each(|(i, b)| *b = pattern(i, salt));
        l
    }

    pub fn bytes(&mut self) -> &mut [u8] {
        let n = self.store.len() * 8;
        // A number is eight bytes, and bytes need no alignment.
        unsafe { std::slice::from_raw_parts_mut(self.store.as_mut_ptr().cast(), n) }
    }

    /// Numbers that the buffer comes with.
    pub fn put(&mut self, numbers: &[u64]) {
        self.bytes()[GUARD..].chunks_exact_mut(8).zip(numbers).for_each(|(bytes, n)| bytes.copy_from_slice(&n.to_le_bytes()));
    }

    pub fn lent(&mut self) -> *mut u8 {
        self.bytes()[GUARD..].as_mut_ptr()
    }

    pub fn as_it_came(&mut self, from: usize, end: usize) -> bool {
        let salt = self.salt;
        (from..end).all(|i| self.bytes()[i] == pattern(i, salt))
    }

    pub fn guarded(&mut self) -> bool {
        let end = GUARD + self.length;
        self.as_it_came(0, GUARD) && self.as_it_came(end, end + GUARD)
    }
}
