//! How a component of a path is matched with the names of entries.

use strandlodge_sys::vault;

/// How each component of a path is matched with the entries of a directory; for
/// [`Disc::lookup_as`](crate::Disc::lookup_as) and the like. Deleted entries and the parent never match.
///
/// ```no_run
/// use strandlodge::{Matching, Disc};
///
/// # fn main() -> std::result::Result<(), Box<dyn std::error::Error>> {
/// let image = std::fs::read("show.img")?; // with the cues 10.1A and 10.1a, in this order
/// let disc = Disc::open(&image)?;
/// let first = disc.read_path("SHOW/10.1a")?; // 10.1A
/// let cue = disc.read_path_as("SHOW/10.1a", Matching::AsWritten)?; // 10.1a
/// let refused = disc.read_path_as("SHOW/10.1a", Matching::Unambiguous); // by 9
/// # Ok(())
/// # }
/// ```
#[derive(Debug, Clone, Copy, PartialEq, Eq, Hash, Default)]
pub enum Matching {
    /// The first entry that is equal with ASCII case ignored, as in the original. It may have another name than you
    /// asked for, and come before the entry that has that name.
    #[default]
    CaseIgnored,
    /// The first entry whose name, as UTF-8, equals the component byte for byte.
    AsWritten,
    /// The only entry that is equal with ASCII case ignored. If there are two or more, even with exactly the same name,
    /// the lookup is refused with 9, [`Refusal::Ambiguous`](crate::Refusal::Ambiguous).
    Unambiguous,
}

impl Matching {
    /// As a number for the interface.
    pub(crate) fn number(self) -> u32 {
        match self {
            Matching::CaseIgnored => vault::CASE_IGNORED,
            Matching::AsWritten => vault::AS_WRITTEN,
            Matching::Unambiguous => vault::UNAMBIGUOUS,
        }
    }
}

#[cfg(test)]
mod tests {
    use super::*;

    #[test]
    fn each_choice_has_its_number() {
        assert_eq!([Matching::CaseIgnored, Matching::AsWritten, Matching::Unambiguous].map(Matching::number), [0, 1, 2]);
        assert_eq!(Matching::default(), Matching::CaseIgnored);
    }
}
