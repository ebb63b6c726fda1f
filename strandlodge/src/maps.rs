//! The partition maps of a volume, and the sector of a block.
//!
//! The proved calls don't use this module. It restates the same rules, for callers that look for the bytes of an extent
//! in the image.

use crate::records::{LbAddr, LongAd};
use strandlodge_sys::vault::Mount;

/// A partition map of type 1 (ECMA-167 3/10.7.2), with the start of its partition.
#[derive(Debug, Clone, Copy, PartialEq, Eq, Hash)]
pub struct PartitionMap {
    /// The sequence number of the volume that holds the partition.
    pub volume: u16,
    /// The partition's number.
    pub number: u16,
    /// The sector where the partition starts.
    pub start: u64,
}

/// The maps of a volume.
pub(crate) fn maps(mount: Mount) -> Vec<PartitionMap> {
    let each = mount.volumes.into_iter().zip(mount.numbers).zip(mount.starts);
    each.take(mount.maps as usize).map(|((volume, number), start)| PartitionMap { volume, number, start: start.into() }).collect()
}

/// The start of a map's partition, if there is such a map.
fn mapped(mount: Mount, reference: u16) -> Option<u64> {
    maps(mount).get(usize::from(reference)).map(|map| map.start)
}

/// The sector of a block, given a descriptor's partition reference.
pub(crate) fn place_of(mount: Mount, place: LbAddr) -> Option<u64> {
    let own = || (place.partition_ref == mount.partition).then_some(mount.start.into());
    let start = if mount.maps == 0 { own() } else { mapped(mount, place.partition_ref) };
    Some(start? + u64::from(place.block))
}

/// The start of the partition that holds the entry of an ICB.
pub(crate) fn started(mount: Mount, icb: LongAd) -> Option<u64> {
    if mount.maps == 0 { Some(mount.start.into()) } else { mapped(mount, icb.location.partition_ref) }
}

#[cfg(test)]
mod tests {
    use super::*;

    fn mount(maps: u32) -> Mount {
        Mount { start: 7, partition: 5, checked: 0, maps, volumes: [1, 2, 3, 4], numbers: [5, 6, 7, 8], starts: [10, 20, 30, u32::MAX] }
    }

    /// The sector of block 2^32 - 1 by a descriptor's reference, and by an ICB's.
    fn placed(maps: u32, partition_ref: u16) -> (Option<u64>, Option<u64>) {
        let location = LbAddr { block: u32::MAX, partition_ref };
        let icb = LongAd { length: 0, extent_type: 3, location, implementation_use: [0; 6] };
        let less = |sector: u64| sector - u64::from(u32::MAX);
        (place_of(mount(maps), location).map(less), started(mount(maps), icb))
    }

    #[test]
    fn without_maps_the_number_is_compared() {
        assert_eq!(maps(mount(0)), []);
        assert_eq!((placed(0, 5), placed(0, 0)), ((Some(7), Some(7)), (None, Some(7))));
    }

    #[test]
    fn with_maps_a_reference_is_an_index() {
        let both = |start| (Some(start), Some(start));
        assert_eq!((placed(1, 0), placed(1, 1), placed(1, 5)), (both(10), (None, None), (None, None)));
        for many in [4, 5, u32::MAX] {
            assert_eq!(maps(mount(many)).len(), 4);
            assert_eq!((placed(many, 1), placed(many, 3), placed(many, 4)), (both(20), both(u32::MAX.into()), (None, None)));
        }
        assert_eq!(maps(mount(2))[1], PartitionMap { volume: 2, number: 6, start: 20 });
    }
}
