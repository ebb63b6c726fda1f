//! The records of include/records.h, and the same flat: every field in order, little-endian, with nothing padded.

use std::fmt::Debug;
pub use strandlodge_sys::records::*;

pub trait Flat: Sized + Debug {
    fn put(&self, to: &mut Vec<u8>);
    /// Takes its bytes off the front.
    fn take(from: &mut &[u8]) -> Self;
}

fn taken<const N: usize>(from: &mut &[u8]) -> [u8; N] {
    let (front, rest) = from.split_first_chunk().expect("a record is whole");
    *from = rest;
    *front
}

macro_rules! numbers {
    ($($type:ty),*) => {
        $(impl Flat for $type {
            fn put(&self, to: &mut Vec<u8>) {
                to.extend(self.to_le_bytes());
            }

            fn take(from: &mut &[u8]) -> $type {
                <$type>::from_le_bytes(taken(from))
            }
        })*
    };
}

// `usize` is as C's size_t: this crosses on machines of 64 bits alone.
numbers!(u8, u16, u32, u64, usize);

impl Flat for bool {
    fn put(&self, to: &mut Vec<u8>) {
        to.push(*self as u8);
    }

    fn take(from: &mut &[u8]) -> bool {
        u8::take(from) != 0
    }
}

impl<const N: usize> Flat for [u8; N] {
    fn put(&self, to: &mut Vec<u8>) {
        to.extend(self);
    }

    fn take(from: &mut &[u8]) -> [u8; N] {
        taken(from)
    }
}

macro_rules! records {
    ($($name:ident { $($field:ident),* $(,)? })*) => {
        $(impl Flat for $name {
            fn put(&self, to: &mut Vec<u8>) {
                $(self.$field.put(to);)*
            }

            fn take(from: &mut &[u8]) -> $name {
                $name { $($field: Flat::take(from)),* }
            }
        })*
    };
}

records! {
    ExtentAd { length, location }
    ShortAd { length, extent_type, block_location }
    LbAddr { block, partition_ref }
    LongAd { length, extent_type, location, implementation_use }
    ExtAd { length, extent_type, recorded_length, information_length, location, implementation_use }
    Tag { id, descriptor_version, serial_number, crc, crc_length, location }
    Aed { tag, previous_allocation_extent_location, length_of_allocation_descriptors }
    Anchor { tag, main_volume_descriptor_sequence, reserve_volume_descriptor_sequence }
    PrimaryVolume { tag, volume_descriptor_sequence_number, primary_volume_descriptor_number, volume_identifier }
    Partition { tag, volume_descriptor_sequence_number, partition_flags, partition_number, partition_starting_location, partition_length }
    LogicalVolume {
        tag, volume_descriptor_sequence_number, logical_volume_identifier, logical_block_size, file_set_descriptor_location,
        map_table_length, number_of_partition_maps, partition_maps,
    }
    FileSet { tag, root_directory_icb }
    IcbTag { prior_recorded_entries, strategy_type, strategy_parameter, max_entries, file_type, parent_icb, flags }
    FileEntry {
        tag, icb_tag, uid, gid, permissions, file_link_count, record_format, record_display_attributes, record_length, information_length,
        logical_blocks_recorded, has_object_size, object_size, length_of_extended_attributes, length_of_allocation_descriptors, kind,
        area_at, area_length,
    }
    FileIdentifier { tag, file_version_number, file_characteristics, icb, name_at, name_length, name_size, total_size }
    Written { answer, length }
}

impl<T: Flat> Flat for Answer<T> {
    fn put(&self, to: &mut Vec<u8>) {
        self.answer.put(to);
        self.value.put(to);
    }

    fn take(from: &mut &[u8]) -> Answer<T> {
        Answer { answer: u64::take(from), value: T::take(from) }
    }
}

/// All zeros.
pub fn zeros<T: Flat>() -> T {
    T::take(&mut &[0; 512][..])
}

pub fn flat(record: &impl Flat) -> Vec<u8> {
    let mut to = Vec::new();
    record.put(&mut to);
    to
}
