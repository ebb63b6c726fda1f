//! The choices on opening.

use strandlodge_sys::vault::{CHECKED, HIGHEST, MAPS};

/// The choices on opening. The default follows the original.
#[derive(Debug, Clone, Copy, Default, PartialEq, Eq, Hash)]
pub struct How {
    /// Of several primary volume, partition or logical volume descriptors, use the one with the highest volume
    /// descriptor sequence number, the later of equals. Otherwise the last one counts. Partition descriptors are
    /// compared whatever their partition numbers; but with `maps`, only those of a map's own partition number decide
    /// where its partition starts, with this choice or without.
    pub highest: bool,
    /// Check the CRC of each descriptor that is parsed, on opening and in every call on the volume. If it is wrong, the
    /// call is refused with 10, [`Refusal::BadCrc`](crate::Refusal::BadCrc). Otherwise CRCs are not looked at, as in
    /// the original.
    pub checked: bool,
    /// Partition references are indices into the logical volume's partition maps, as in ECMA-167: up to four, all of
    /// type 1. Each extent, continuation and ICB is then in the partition of its own reference; one without a reference
    /// is in that of its entry. Otherwise references are compared with the partition's number, and those of ICBs are
    /// ignored, as in the original.
    pub maps: bool,
}

impl How {
    /// As a number for the interface: the sum of the choices.
    pub(crate) fn number(self) -> u32 {
        let choices = [(self.checked, CHECKED), (self.maps, MAPS), (self.highest, HIGHEST)];
        choices.iter().filter(|(chosen, _)| *chosen).map(|(_, bit)| bit).sum()
    }
}

#[cfg(test)]
mod tests {
    use super::*;

    #[test]
    fn the_choices_are_added_up() {
        let bit = |n: u32, bit| n & bit != 0;
        let numbers = [0, 1, 2, 3, 4, 5, 6, 7];
        assert_eq!(numbers.map(|n| How { highest: bit(n, 4), checked: bit(n, 1), maps: bit(n, 2) }.number()), numbers);
        assert_eq!(How::default().number(), 0);
    }
}
