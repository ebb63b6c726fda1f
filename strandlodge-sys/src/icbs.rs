//! An ICB in its recorded form of 16 bytes.

use crate::vault::{LbAddr, LongAd};

/// An ICB from its recorded form, whose first number has 30 bits of length below 2 bits of type.
pub fn long_ad(b: &[u8; 16]) -> LongAd {
    let raw = u32::from_le_bytes([b[0], b[1], b[2], b[3]]);
    LongAd {
        length: raw & 0x3fff_ffff,
        extent_type: (raw >> 30) as u8,
        location: LbAddr { block: u32::from_le_bytes([b[4], b[5], b[6], b[7]]), partition_ref: u16::from_le_bytes([b[8], b[9]]) },
        implementation_use: [b[10], b[11], b[12], b[13], b[14], b[15]],
    }
}

/// An ICB as recorded.
pub fn recorded(icb: &LongAd) -> [u8; 16] {
    let mut b = [0; 16];
    b[..4].copy_from_slice(&(icb.length & 0x3fff_ffff | u32::from(icb.extent_type) << 30).to_le_bytes());
    b[4..8].copy_from_slice(&icb.location.block.to_le_bytes());
    b[8..10].copy_from_slice(&icb.location.partition_ref.to_le_bytes());
    b[10..].copy_from_slice(&icb.implementation_use);
    b
}
