//! The original's records, with their names and fields, parsed and encoded by the proved calls of include/records.h.
//!
//! A record is parsed at the front of the bytes; what follows it is ignored. A refusal is 2 and asks for no sector. The
//! calls give every record whole except a file's entry: its area is split into descriptors here, and each of them is
//! parsed by a call.
//!
//! ```
//! use strandlodge::udf::{DescriptorTag, TagId};
//!
//! # fn main() -> strandlodge::Result<()> {
//! let tag = DescriptorTag { id: TagId::FileEntry, descriptor_version: 2, serial_number: 0, crc: 0, crc_length: 0, location: 7 };
//! assert_eq!(DescriptorTag::parse(&tag.encode())?, tag);
//! # Ok(())
//! # }
//! ```

use crate::answer::{Refusal, Refused, Result};
pub use crate::disc::{probe_vrs, read_volume_label};
pub use crate::entries::{AdContinuation, AdType, FileEntry, FileIdentifierDescriptor, IcbTag};
use crate::parsing;
pub use crate::records::{AllocExtent, DirEntry, LbAddr, LongAd};
use strandlodge_sys::records as face;

pub use crate::counted::SECTOR_SIZE;

/// The sector of the anchor (3/10.2).
pub const AVDP_SECTOR: u64 = 256;

macro_rules! ids {
    ($($name:ident = $number:literal, $says:literal;)*) => {
        /// The kinds of descriptors (ECMA-167 3/7.2.1, 4/7.2.1), by the ids of their tags.
        #[derive(Debug, Clone, Copy, PartialEq, Eq, Hash)]
        #[repr(u16)]
        pub enum TagId {
            $(#[doc = $says] $name = $number,)*
        }

        impl TagId {
            /// The kind with this number, if there is one.
            pub fn from_raw(v: u16) -> Option<TagId> {
                match v {
                    $($number => Some(TagId::$name),)*
                    _ => None,
                }
            }

            /// Its name in English.
            pub fn name(self) -> &'static str {
                match self {
                    $(TagId::$name => $says,)*
                }
            }
        }
    };
}

ids! {
    PrimaryVolume = 1, "primary volume descriptor";
    AnchorVolumeDescriptorPointer = 2, "anchor";
    VolumeDescriptorPointer = 3, "volume descriptor pointer";
    ImplementationUseVolume = 4, "implementation use volume descriptor";
    Partition = 5, "partition descriptor";
    LogicalVolume = 6, "logical volume descriptor";
    UnallocatedSpace = 7, "unallocated space descriptor";
    Terminating = 8, "terminating descriptor";
    LogicalVolumeIntegrity = 9, "logical volume integrity descriptor";
    FileSet = 256, "file set descriptor";
    FileIdentifier = 257, "file identifier";
    AllocationExtent = 258, "allocation extent descriptor";
    Indirect = 259, "indirect entry";
    Terminal = 260, "terminal entry";
    FileEntry = 261, "file entry";
    ExtendedAttributeHeader = 262, "extended attribute header descriptor";
    UnallocatedSpaceEntry = 263, "unallocated space entry";
    SpaceBitmap = 264, "space bitmap descriptor";
    PartitionIntegrityEntry = 265, "partition integrity entry";
    ExtendedFileEntry = 266, "extended file entry";
}

/// The refusal of an invalid record.
pub(crate) fn malformed<T>() -> Result<T> {
    Err(Refused { why: Refusal::Malformed, sectors: 0 })
}

/// The tag at the front of a descriptor (3/7.2).
#[derive(Debug, Clone, Copy, PartialEq, Eq, Hash)]
#[allow(missing_docs)]
pub struct DescriptorTag {
    pub id: TagId,
    pub descriptor_version: u16,
    pub serial_number: u16,
    pub crc: u16,
    pub crc_length: u16,
    /// Where the descriptor claims to be.
    pub location: u32,
}

impl DescriptorTag {
    /// Its size in bytes.
    pub const SIZE: usize = 16;

    /// Parses the tag at the front of these bytes and checks its checksum and its id.
    ///
    /// # Errors
    ///
    /// Refusal 2 if there are too few bytes, or they are not such a record.
    pub fn parse(bytes: &[u8]) -> Result<DescriptorTag> {
        DescriptorTag::of_c(parsing::tag(bytes)?)
    }

    /// Its recorded form.
    pub fn encode(&self) -> [u8; DescriptorTag::SIZE] {
        parsing::tag_bytes(self.to_c())
    }

    /// Whether its location matches where it is: `sector` for a volume's descriptor; `block`, within its partition, for any
    /// other.
    pub fn is_in_place(&self, sector: u64, block: u32) -> bool {
        parsing::is_in_place(self.to_c(), sector, block)
    }

    /// Whether the descriptor at the front of these bytes has the CRC that its tag gives.
    pub fn has_right_body(&self, bytes: &[u8]) -> bool {
        parsing::has_right_body(self.to_c(), bytes)
    }

    pub(crate) fn of_c(tag: face::Tag) -> Result<DescriptorTag> {
        let face::Tag { id, descriptor_version, serial_number, crc, crc_length, location } = tag;
        // Reading keeps the id within those that are listed.
        let Some(id) = TagId::from_raw(id) else {
            return malformed();
        };
        Ok(DescriptorTag { id, descriptor_version, serial_number, crc, crc_length, location })
    }

    fn to_c(self) -> face::Tag {
        let DescriptorTag { id, descriptor_version, serial_number, crc, crc_length, location } = self;
        face::Tag { id: id as u16, descriptor_version, serial_number, crc, crc_length, location }
    }
}

/// Records that cross the interface field by field, both ways, with their sizes.
macro_rules! small {
    ($($says:literal $name:ident, $size:literal, $parse:ident, $bytes:ident { $($field:ident: $kind:ty,)* })*) => {$(
        #[doc = $says]
        #[derive(Debug, Clone, Copy, PartialEq, Eq, Hash)]
        #[allow(missing_docs)]
        pub struct $name {
            $(pub $field: $kind,)*
        }

        impl $name {
            /// Its size in bytes.
            pub const SIZE: usize = $size;

            /// Parses the record at the front of these bytes.
            ///
            /// # Errors
            ///
            /// Refusal 2 if there are too few bytes, or they are not such a record.
            pub fn parse(bytes: &[u8]) -> Result<$name> {
                let face::$name { $($field,)* } = parsing::$parse(bytes)?;
                Ok($name { $($field: $field.into(),)* })
            }

            /// Its recorded form.
            pub fn encode(self) -> [u8; $name::SIZE] {
                let $name { $($field,)* } = self;
                parsing::$bytes(face::$name { $($field: $field.into(),)* })
            }
        }
    )*};
}

small! {
    "An extent in sectors (3/7.1)." ExtentAd, 8, extent_ad, extent_ad_bytes { length: u32, location: u32, }
    "A short allocation descriptor (4/14.14.1)." ShortAd, 8, short_ad, short_ad_bytes { length: u32, extent_type: u8, block_location: u32, }
    "An extended allocation descriptor (4/14.14.3)." ExtAd, 20, ext_ad, ext_ad_bytes {
        length: u32, extent_type: u8, recorded_length: u32, information_length: u32, location: LbAddr, implementation_use: [u8; 2],
    }
}

impl From<face::LbAddr> for LbAddr {
    fn from(place: face::LbAddr) -> LbAddr {
        LbAddr { block: place.block, partition_ref: place.partition_ref }
    }
}

impl From<LbAddr> for face::LbAddr {
    fn from(place: LbAddr) -> face::LbAddr {
        face::LbAddr { block: place.block, partition_ref: place.partition_ref }
    }
}

impl LbAddr {
    /// Its size in bytes.
    pub const SIZE: usize = 6;

    /// Parses the record at the front of these bytes.
    ///
    /// # Errors
    ///
    /// Refusal 2 if there are too few bytes, or they are not such a record.
    pub fn parse(bytes: &[u8]) -> Result<LbAddr> {
        parsing::lb_addr(bytes).map(LbAddr::from)
    }

    /// Its recorded form.
    pub fn encode(self) -> [u8; LbAddr::SIZE] {
        parsing::lb_addr_bytes(self.into())
    }
}

impl LongAd {
    /// Its size in bytes.
    pub const SIZE: usize = 16;

    /// Parses the record at the front of these bytes.
    ///
    /// # Errors
    ///
    /// Refusal 2 if there are too few bytes, or they are not such a record.
    pub fn parse(bytes: &[u8]) -> Result<LongAd> {
        parsing::long_ad(bytes).map(LongAd::from)
    }

    /// Its recorded form.
    pub fn encode(self) -> [u8; LongAd::SIZE] {
        let LongAd { length, extent_type, location, implementation_use } = self;
        parsing::long_ad_bytes(face::LongAd { length, extent_type, location: location.into(), implementation_use })
    }
}

impl From<face::LongAd> for LongAd {
    fn from(ad: face::LongAd) -> LongAd {
        let face::LongAd { length, extent_type, location, implementation_use } = ad;
        LongAd { length, extent_type, location: location.into(), implementation_use }
    }
}

/// The name in a d-string (OSTA UDF 2.1.1). A deleted one, with id 254 or 255, gives an empty name; the original
/// refuses it.
///
/// # Errors
///
/// Refusal 2 if the bytes are not a name.
pub fn decode_dstring(payload: &[u8]) -> Result<String> {
    parsing::dstring(payload)
}

/// The name in a field, whose last byte gives its length (1/7.2.12).
///
/// # Errors
///
/// Refusal 2 if the field is not a valid name.
pub fn decode_dstring_field(field: &[u8]) -> Result<String> {
    parsing::dstring_field(field)
}

/// Descriptors that are parsed but not encoded: some fields as they cross the interface, and some made from them.
macro_rules! descriptors {
    ($($says:literal $name:ident, $parse:ident { $($field:ident: $kind:ty = $make:expr,)* })*) => {$(
        #[doc = $says]
        #[derive(Debug, Clone, PartialEq, Eq, Hash)]
        #[allow(missing_docs)]
        pub struct $name {
            pub tag: DescriptorTag,
            $(pub $field: $kind,)*
        }

        impl $name {
            /// Parses the descriptor at the front of these bytes.
            ///
            /// # Errors
            ///
            /// Refusal 2 if there are too few bytes, or they are not such a record.
            pub fn parse(bytes: &[u8]) -> Result<$name> {
                let raw = parsing::$parse(bytes)?;
                Ok($name { tag: DescriptorTag::of_c(raw.tag)?, $($field: { let make: fn(_) -> Result<$kind> = $make; make(raw.$field)? },)* })
            }
        }
    )*};
}

/// A field as it crosses the interface.
fn same<T>(value: T) -> Result<T> {
    Ok(value)
}

fn extent(value: face::ExtentAd) -> Result<ExtentAd> {
    Ok(ExtentAd { length: value.length, location: value.location })
}

fn place(value: face::LongAd) -> Result<LongAd> {
    Ok(value.into())
}

fn label<const N: usize>(field: [u8; N]) -> Result<String> {
    decode_dstring_field(&field)
}

descriptors! {
    "The anchor (3/10.2), which says where the volume's descriptors are." AnchorVolumeDescriptorPointer, anchor {
        main_volume_descriptor_sequence: ExtentAd = extent,
        reserve_volume_descriptor_sequence: ExtentAd = extent,
    }
    "The primary volume descriptor (3/10.1), with the label." PrimaryVolumeDescriptor, primary_volume {
        volume_descriptor_sequence_number: u32 = same,
        primary_volume_descriptor_number: u32 = same,
        volume_identifier: String = label,
    }
    "A partition descriptor (3/10.5): start and length are in sectors." PartitionDescriptor, partition {
        volume_descriptor_sequence_number: u32 = same,
        partition_flags: u16 = same,
        partition_number: u16 = same,
        partition_starting_location: u32 = same,
        partition_length: u32 = same,
    }
    "The logical volume descriptor (3/10.6), with the block size and the place of the file set." LogicalVolumeDescriptor, logical_volume {
        volume_descriptor_sequence_number: u32 = same,
        logical_volume_identifier: String = label,
        logical_block_size: u32 = same,
        file_set_descriptor_location: LongAd = place,
    }
    "The file set descriptor (4/14.1), with the root." FileSetDescriptor, file_set {
        root_directory_icb: LongAd = place,
    }
    "The header of a continuation (4/14.5); its descriptors follow it." AllocationExtentDescriptor, aed {
        previous_allocation_extent_location: u32 = same,
        length_of_allocation_descriptors: u32 = same,
    }
}

impl AllocationExtentDescriptor {
    /// Its size in bytes.
    pub const HEADER_SIZE: usize = 24;

    /// Its recorded form.
    pub fn encode(&self) -> [u8; AllocationExtentDescriptor::HEADER_SIZE] {
        let &AllocationExtentDescriptor { ref tag, previous_allocation_extent_location, length_of_allocation_descriptors } = self;
        parsing::aed_bytes(face::Aed { tag: tag.to_c(), previous_allocation_extent_location, length_of_allocation_descriptors })
    }
}
