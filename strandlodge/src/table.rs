//! The partition maps of the logical volume descriptor, of every type, for display. Opening does not use this module.

use crate::calls;
use crate::how::How;
use crate::sequence::{Kind, SECTOR, partition, partition_start, volume_descriptors};

/// The offsets of the table's length, the number of maps and the table itself in a logical volume descriptor (ECMA-167
/// 3/10.6).
const LENGTH: usize = 264;
const MAPS: usize = 268;
const TABLE: usize = 440;

/// A map of type 1 begins with these bytes.
const PLAIN: [u8; 2] = [1, 6];

/// The map table of the logical volume descriptor that counts.
#[derive(Debug, Clone, PartialEq, Eq, Hash)]
pub struct MapTable {
    /// The number of maps that it gives.
    pub maps: u32,
    /// The length in bytes that it gives.
    pub length: u32,
    /// The maps that are completely inside the table and its sector. A reference is an index into them.
    pub found: Vec<MapForm>,
}

impl MapTable {
    /// The most maps that are supported.
    pub const MOST: u32 = 4;

    /// Whether the table, and six bytes for each of its maps, are where they must be.
    pub fn is_whole(&self) -> bool {
        u64::from(self.maps) * 6 <= self.length.into() && TABLE as u64 + u64::from(self.length) <= SECTOR as u64
    }
}

/// A partition map.
#[derive(Debug, Clone, PartialEq, Eq, Hash)]
pub enum MapForm {
    /// Type 1, which is supported.
    Plain {
        /// The sequence number of the volume that holds the partition.
        volume: u16,
        /// The partition's number.
        number: u16,
        /// Where the partition starts, according to the partition descriptor of that number that counts. Without one
        /// the map is not supported.
        start: Option<u64>,
    },
    /// Another type, which is not supported.
    Other {
        /// Its type.
        kind: u8,
        /// Its length in bytes.
        length: u8,
        /// Its partition type identifier, if it is of type 2: as recorded, up to the first zero.
        identifier: Vec<u8>,
    },
}

/// The map table of the logical volume descriptor that counts, if there is one. This looks at the sectors again, and
/// does not count them.
pub fn map_table(image: &[u8], how: How) -> Option<MapTable> {
    let descriptors = volume_descriptors(image, How { maps: true, ..how });
    let prevailing = |kind| descriptors.iter().filter(move |one| one.prevails && one.kind == kind);
    let logical = prevailing(Kind::LogicalVolume).next()?.sector as usize;
    let partitions: Vec<_> = prevailing(Kind::Partition).map(|one| (partition(image, one), partition_start(image, one))).collect();
    let start = |number| partitions.iter().find(|(of, _)| *of == number).map(|(_, start)| *start);
    Some(table(image.get(logical * SECTOR..)?, start))
}

/// The table of the logical volume descriptor at the front of these bytes; `start` gives the start of the partition
/// with a number, if there is one.
pub(crate) fn table(logical: &[u8], start: impl Fn(u16) -> Option<u32>) -> MapTable {
    let number = |at| calls::peek(logical, at).map_or(0, u32::from_le_bytes);
    let (length, maps) = (number(LENGTH), number(MAPS));
    let (mut found, mut at) = (Vec::new(), TABLE);
    let end = TABLE.saturating_add(length as usize).min(SECTOR);
    while found.len() < maps as usize
        && let Some(map) = map_at(logical, at, end)
    {
        at += map.len();
        found.push(form(&map, &start));
    }
    MapTable { maps, length, found }
}

/// The bytes of the map at an offset of a sector, if it ends before `end`. Each is read once.
fn map_at(sector: &[u8], at: usize, end: usize) -> Option<Vec<u8>> {
    let [kind, length] = calls::peek(sector, at).filter(|_| at + PLAIN.len() <= end)?;
    if usize::from(length) < PLAIN.len() || at + usize::from(length) > end {
        return None;
    }
    let rest = (PLAIN.len()..length.into()).map(|i| calls::peek::<1>(sector, at + i).map_or(0, |[byte]| byte));
    Some([kind, length].into_iter().chain(rest).collect())
}

/// A map from its bytes.
fn form(map: &[u8], start: impl Fn(u16) -> Option<u32>) -> MapForm {
    match *map {
        [kind, length, v, w, n, m] if [kind, length] == PLAIN => {
            let number = u16::from_le_bytes([n, m]);
            MapForm::Plain { volume: u16::from_le_bytes([v, w]), number, start: start(number).map(u64::from) }
        }
        _ => {
            // Two bytes are reserved, and flags stand in front of the identifier (OSTA UDF 2.2.8).
            let identifier = map.get(5..28).filter(|_| map[0] == 2).unwrap_or_default();
            let identifier = identifier.split(|byte| *byte == 0).next().unwrap_or_default().to_vec();
            MapForm::Other { kind: map[0], length: map[1], identifier }
        }
    }
}
