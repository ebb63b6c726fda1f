//! What is asked for on a disc: a path, or the place of an entry.

use strandlodge::{LbAddr, LongAd, SECTOR_SIZE};

#[derive(Debug, Clone, PartialEq, Eq)]
pub enum Wanted {
    /// Names between slashes, in bytes: names on a disc need not be this system's.
    Path(Vec<u8>),
    /// The entry in a block, for what no path leads to: a name with a slash in it, the second of two entries with one name.
    Icb(Icb),
}

impl Wanted {
    /// As it stands in messages: the path, or what was typed in its place.
    pub fn text(&self) -> Vec<u8> {
        match self {
            Wanted::Path(path) => path.clone(),
            Wanted::Icb(icb) => icb.typed().into_bytes(),
        }
    }
}

/// The place of an entry, as `--icb` takes it.
#[derive(Debug, Clone, Copy, PartialEq, Eq)]
pub struct Icb {
    block: u32,
    reference: Option<u16>,
}

impl Icb {
    /// BLOCK or BLOCK:REF.
    pub fn parse(word: &str) -> Option<Icb> {
        let (block, reference) = match word.split_once(':') {
            Some((block, reference)) => (block, Some(reference.parse().ok()?)),
            None => (word, None),
        };
        Some(Icb { block: block.parse().ok()?, reference })
    }

    /// As the calls take it. A reference is looked at where the volume was opened through its maps alone, of which 0 is the first.
    pub fn long_ad(self) -> LongAd {
        let location = LbAddr { block: self.block, partition_ref: self.reference.unwrap_or(0) };
        LongAd { length: SECTOR_SIZE as u32, extent_type: 0, location, implementation_use: [0; 6] }
    }

    fn typed(self) -> String {
        format!("--icb {}{}", self.block, self.reference.map_or(String::new(), |reference| format!(":{reference}")))
    }
}

/// The same of an entry that is listed.
pub fn typed(icb: LongAd) -> String {
    format!("{}:{}", icb.location.block, icb.location.partition_ref)
}

#[cfg(test)]
mod tests {
    use super::*;

    #[test]
    fn an_icb_is_a_block_and_a_reference() {
        let of = |word| Icb::parse(word).map(|icb| (icb.block, icb.reference, icb.typed()));
        assert_eq!(of("7"), Some((7, None, "--icb 7".to_string())));
        assert_eq!(of("4294967295:65535"), Some((u32::MAX, Some(u16::MAX), "--icb 4294967295:65535".to_string())));
        for word in ["", ":", "7:", ":5", "-1", "4294967296", "7:65536", "7:5:5", "0x7", "7 5"] {
            assert_eq!(of(word), None, "{word}");
        }
    }

    #[test]
    fn what_is_listed_is_taken_back() {
        let icb = Icb::parse("7:5").unwrap().long_ad();
        assert_eq!((typed(icb).as_str(), icb.length, icb.extent_type), ("7:5", 2048, 0));
        assert_eq!(Icb::parse(&typed(icb)).unwrap().long_ad(), icb);
    }
}
