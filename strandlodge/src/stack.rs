//! Many files read by one call.

use crate::answer::{Answered, Refusal, Refused};
use crate::calls::{self, Rows};
use crate::matching::Matching;
use crate::room::{FIRST, Room};
use strandlodge_sys::vault::{NO_WORK, Volume};

/// The result of one path of a list: a file's bytes, or the refusal.
pub type Item = std::result::Result<Vec<u8>, Refusal>;

/// Paths as a call takes them, separated by zero bytes. A path that contains a zero byte can't be among them.
#[derive(Default)]
pub struct List {
    bytes: Vec<u8>,
    paths: usize,
}

impl List {
    pub fn can_have(path: &[u8]) -> bool {
        !path.contains(&0)
    }

    /// The paths that a list can hold, in order; `None` if there is not enough memory.
    pub fn of(paths: &[impl AsRef<[u8]>]) -> Option<List> {
        let mut list = List::default();
        for path in paths.iter().map(AsRef::as_ref).filter(|path| List::can_have(path)) {
            list.bytes.try_reserve(path.len() + 1).ok()?;
            if list.paths > 0 {
                list.bytes.push(0);
            }
            list.bytes.extend_from_slice(path);
            list.paths += 1;
        }
        Some(list)
    }
}

/// The results of a list of paths, taken from the front.
#[derive(Default)]
pub struct Stack {
    out: Vec<u8>,
    rows: Rows,
    taken: usize,
    from: usize,
}

impl Stack {
    /// Reads a list with one call, and repeats it with more work space if a path was refused for lack of it. The output
    /// has room for as much as files have at first: a file that doesn't fit into the rest is refused with 5. An empty
    /// list is not read: no bytes would mean one path.
    pub fn read(volume: Volume, image: &[u8], list: &List, matching: Matching, work: &mut Room<u8>) -> Answered<Stack> {
        let mut stack = Stack::default();
        if list.paths == 0 {
            return Ok(crate::Answer { value: stack, sectors: 0 });
        }
        stack.out = Room::new(list.paths.saturating_mul(FIRST), usize::MAX).lent;
        stack.rows = Rows { lengths: Room::new(list.paths, list.paths).lent, answers: Room::new(list.paths, list.paths).lent };
        loop {
            let Stack { out, rows, .. } = &mut stack;
            let answer = calls::read_all(volume, image, &list.bytes, matching, out, rows, &mut work.lent)?;
            let short = rows.answers.iter().any(|answer| u64::from(*answer) == NO_WORK);
            if !short || !work.double() {
                return Ok(answer.map(|()| stack));
            }
        }
    }

    /// The result of the next path.
    pub fn next(&mut self) -> Option<std::result::Result<&[u8], Refusal>> {
        let (answer, length) = (*self.rows.answers.get(self.taken)?, *self.rows.lengths.get(self.taken)?);
        let from = self.from;
        self.taken += 1;
        self.from = from.saturating_add(length as usize);
        match Refusal::of(answer.into()) {
            Some(why) => Some(Err(why)),
            None => Some(Ok(self.out.get(from..self.from).unwrap_or_default())),
        }
    }
}

/// The refusal of a list that there is no memory for.
pub fn too_many() -> Refused {
    Refused { why: Refusal::TooMany, sectors: 0 }
}

/// A copy of the bytes, if there is memory for it.
pub fn copied(bytes: &[u8]) -> Item {
    let mut own = Vec::new();
    own.try_reserve_exact(bytes.len()).map_err(|_| Refusal::NoRoom)?;
    own.extend_from_slice(bytes);
    Ok(own)
}

#[cfg(test)]
mod tests {
    use super::*;

    #[test]
    fn a_list_has_a_zero_between_each_two() {
        let of = |paths: &[&str]| List::of(paths).map(|list| (list.bytes, list.paths)).unwrap();
        assert_eq!(of(&[]), (b"".to_vec(), 0));
        assert_eq!(of(&[""]), (b"".to_vec(), 1));
        assert_eq!(of(&["", ""]), (b"\0".to_vec(), 2));
        assert_eq!(of(&["a", "b\0c", "", "d"]), (b"a\0\0d".to_vec(), 3));
        assert_eq!(of(&["\0"]), (b"".to_vec(), 0));
    }
}
