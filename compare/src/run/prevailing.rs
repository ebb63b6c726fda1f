//! Opening by a choice that the original doesn't have: a model over the descriptors as the original parses them. Of several descriptors of one kind
//! the one with the highest sequence number counts; or partition references go through the maps of the logical volume.

use super::calls::Volume;
use super::original::{Came, icb, number};
use crate::error::BlurayError;
use crate::udf::{AnchorVolumeDescriptorPointer, FileSetDescriptor, LogicalVolumeDescriptor, PartitionDescriptor, PrimaryVolumeDescriptor};

/// The volume, and the label decoded.
type Opened = (Volume, String);

/// By the highest numbers.
pub fn open(image: &[u8]) -> Came<Opened> {
    let mut asked = Vec::new();
    let value = opened(image, &mut asked);
    Came { value, asked }
}

/// Through the maps, by the highest numbers or by the last ones.
pub fn open_mapped(image: &[u8], by_number: bool) -> Came<Opened> {
    let mut asked = Vec::new();
    let value = opened_mapped(image, by_number, &mut asked);
    Came { value, asked }
}

fn sector<'a>(image: &'a [u8], s: u64, asked: &mut Vec<u64>) -> Result<&'a [u8], u64> {
    asked.push(s);
    let at = s as usize * 2048;
    image.get(at..at + 2048).ok_or(1)
}

fn parsed<T>(read: Result<T, BlurayError>) -> Result<T, u64> {
    read.map_err(|e| number(&e))
}

/// What a sequence has of each kind, each with its number.
struct Sequence<'a> {
    primaries: Vec<(u32, ([u8; 32], String))>,
    partitions: Vec<(u32, PartitionDescriptor)>,
    /// With their bytes, of which the original doesn't read the maps.
    logicals: Vec<(u32, (LogicalVolumeDescriptor, &'a [u8]))>,
}

fn sequence<'a>(image: &'a [u8], asked: &mut Vec<u64>) -> Result<Sequence<'a>, u64> {
    let anchor = parsed(AnchorVolumeDescriptorPointer::parse(sector(image, 256, asked)?))?;
    let main = anchor.main_volume_descriptor_sequence;
    let mut found = Sequence { primaries: Vec::new(), partitions: Vec::new(), logicals: Vec::new() };
    for i in 0..u64::from(main.length) / 2048 {
        let b = sector(image, u64::from(main.location) + i, asked)?;
        match u16::from_le_bytes([b[0], b[1]]) {
            1 => {
                let d = parsed(PrimaryVolumeDescriptor::parse(b))?;
                let label: [u8; 32] = b[24..56].try_into().unwrap();
                found.primaries.push((d.volume_descriptor_sequence_number, (label, d.volume_identifier)));
            }
            5 => {
                let d = parsed(PartitionDescriptor::parse(b))?;
                found.partitions.push((d.volume_descriptor_sequence_number, d));
            }
            6 => {
                let d = parsed(LogicalVolumeDescriptor::parse(b))?;
                found.logicals.push((d.volume_descriptor_sequence_number, (d, b)));
            }
            8 => break,
            _ => {}
        }
    }
    Ok(found)
}

/// Of those of one kind the one with the highest number. Sorting leaves equal ones in their order, so that the later is the last.
fn highest<T>(mut found: Vec<(u32, T)>) -> Result<T, u64> {
    found.sort_by_key(|(number, _)| *number);
    last(found)
}

fn last<T>(mut found: Vec<(u32, T)>) -> Result<T, u64> {
    found.pop().map(|(_, one)| one).ok_or(3)
}

fn opened(image: &[u8], asked: &mut Vec<u64>) -> Result<Opened, u64> {
    let Sequence { primaries, partitions, logicals } = sequence(image, asked)?;
    let ((label, name), partition, (logical, _)) = (highest(primaries)?, highest(partitions)?, highest(logicals)?);
    let place = logical.file_set_descriptor_location.location;
    if logical.logical_block_size != 2048 || place.partition_ref != partition.partition_number {
        return Err(4);
    }
    let (start, number) = (partition.partition_starting_location, partition.partition_number);
    let set = parsed(FileSetDescriptor::parse(sector(image, u64::from(start) + u64::from(place.block), asked)?))?;
    Ok((Volume { start, partition: number, root: icb(set.root_directory_icb), label, ..Volume::default() }, name))
}

fn u32_at(b: &[u8], at: usize) -> u32 {
    u32::from_le_bytes(b[at..at + 4].try_into().unwrap())
}

/// A map's volume sequence number, its partition's number and where that starts.
fn resolved(map: &[u8], partitions: &[(u32, PartitionDescriptor)], by_number: bool) -> Result<(u16, u16, u32), u64> {
    let [1, 6, v, w, n, m] = *map else { return Err(4) };
    let (volume, number) = (u16::from_le_bytes([v, w]), u16::from_le_bytes([n, m]));
    let of = partitions.iter().filter(|(_, d)| d.partition_number == number);
    let starts: Vec<(u32, u32)> = of.map(|(sequence, d)| (*sequence, d.partition_starting_location)).collect();
    let start = if by_number { highest(starts) } else { last(starts) };
    Ok((volume, number, start.map_err(|_| 4u64)?))
}

fn opened_mapped(image: &[u8], by_number: bool, asked: &mut Vec<u64>) -> Result<Opened, u64> {
    let Sequence { primaries, partitions, logicals } = sequence(image, asked)?;
    let ((label, name), (logical, bytes)) = match by_number {
        true => (highest(primaries)?, highest(logicals)?),
        false => (last(primaries)?, last(logicals)?),
    };
    if partitions.is_empty() {
        return Err(3);
    }
    let (length, count) = (u32_at(bytes, 264), u32_at(bytes, 268));
    if logical.logical_block_size != 2048 || count > 4 {
        return Err(4);
    }
    if count * 6 > length || u64::from(length) > 2048 - 440 {
        return Err(2);
    }
    let mut v = Volume { maps: count, label, ..Volume::default() };
    for (i, map) in bytes[440..].chunks_exact(6).take(count as usize).enumerate() {
        (v.volumes[i], v.numbers[i], v.starts[i]) = resolved(map, &partitions, by_number)?;
    }
    let place = logical.file_set_descriptor_location.location;
    if u32::from(place.partition_ref) >= count {
        return Err(4);
    }
    (v.start, v.partition) = (v.starts[place.partition_ref as usize], v.numbers[place.partition_ref as usize]);
    let set = parsed(FileSetDescriptor::parse(sector(image, u64::from(v.start) + u64::from(place.block), asked)?))?;
    v.root = icb(set.root_directory_icb);
    Ok((v, name))
}
