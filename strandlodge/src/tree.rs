//! A whole show, an entry at a time.

use crate::records::{ShowEntry, leveled};
use std::fmt;
use std::iter::FusedIterator;

/// The entries of a volume down to a number of levels. An entry comes before what is below it, and the entries of a
/// directory come in the order of the disc.
#[derive(Clone)]
pub struct Show {
    records: Vec<u8>,
    from: usize,
    /// The path of the previous entry, and where in it the name of each level ends.
    path: String,
    ends: Vec<usize>,
}

impl Show {
    /// From the records that `vault_show` gives.
    pub(crate) fn of(records: Vec<u8>) -> Show {
        Show { records, from: 0, path: String::new(), ends: Vec::new() }
    }
}

impl Iterator for Show {
    type Item = ShowEntry;

    fn next(&mut self) -> Option<ShowEntry> {
        let rest = self.records.get(self.from..)?;
        let (level, entry, behind) = leveled(rest)?;
        let entry = entry?;
        self.from += rest.len() - behind.len();
        // What stands above it is the front of the path before, which was its directory's, a sibling's or of something under one.
        self.ends.truncate(usize::from(level).saturating_sub(1));
        self.path.truncate(self.ends.last().copied().unwrap_or(0));
        if !self.ends.is_empty() {
            self.path.push('/');
        }
        self.path.push_str(&entry.name);
        self.ends.push(self.path.len());
        Some(ShowEntry { level, path: self.path.clone(), entry })
    }
}

impl FusedIterator for Show {}

impl fmt::Debug for Show {
    /// Leaves out the records, which may have many megabytes.
    fn fmt(&self, f: &mut fmt::Formatter<'_>) -> fmt::Result {
        f.debug_struct("Show").field("bytes", &self.records.len()).finish_non_exhaustive()
    }
}

#[cfg(test)]
mod tests {
    use super::*;

    fn record(level: u8, directory: u8, name: &str) -> Vec<u8> {
        let length = (name.len() as u16).to_le_bytes();
        [&[0x44, 0x45, level, directory][..], &[7; 16], &length, name.as_bytes()].concat()
    }

    fn paths(records: &[(u8, u8, &str)]) -> Vec<String> {
        Show::of(records.iter().flat_map(|(level, directory, name)| record(*level, *directory, name)).collect())
            .map(|one| format!("{} {}", one.level, one.path))
            .collect()
    }

    #[test]
    fn a_path_has_the_names_above() {
        let records = [(1, 1, "a"), (2, 1, "b"), (3, 0, "c"), (2, 0, "d"), (1, 1, ""), (2, 0, "e"), (1, 0, "f/g"), (1, 0, "h")];
        assert_eq!(paths(&records), ["1 a", "2 a/b", "3 a/b/c", "2 a/d", "1 ", "2 /e", "1 f/g", "1 h"]);
        assert_eq!(paths(&[]), [""; 0]);
    }

    #[test]
    fn what_is_no_record_ends_it() {
        let mut records = record(1, 0, "a");
        records.extend(&record(1, 0, "b")[..21]);
        assert_eq!(Show::of(records).count(), 1);
    }
}
