//! The calls of include/records.h that `check` and `info` make, wrapped.
//!
//! Why they are sound: the header asks that the lent pieces don't overlap and that their pointers aren't null, which holds of a shared slice
//! and of an array of this module's own; and the calls stay within the lengths that they are given, whatever the bytes are. So the Rust of
//! this command looks at no byte of a map here either.
#![allow(unsafe_code)]

use strandlodge_sys::records::*;
pub use strandlodge_sys::records::{FileEntry, FileIdentifier, Tag};

/// A name has at most 508 bytes of UTF-8.
const NAME: usize = 508;

type Parser<T> = unsafe extern "C" fn(*const u8, usize) -> Answer<T>;

/// The record at the front; none where it is refused, which is always by 2.
fn parsed<T>(call: Parser<T>, bytes: &[u8]) -> Option<T> {
    // SAFETY: the head of this module; each of these calls takes a pointer with its length, and writes nothing.
    let answer = unsafe { call(bytes.as_ptr(), bytes.len()) };
    (answer.answer == DONE).then_some(answer.value)
}

pub fn tag(bytes: &[u8]) -> Option<Tag> {
    parsed(records_parse_tag, bytes)
}

/// The id at the front of a sector, whatever the rest of its tag holds: the low half of the first number of any record.
pub fn id(bytes: &[u8]) -> Option<u16> {
    parsed(records_parse_extent_ad, bytes).map(|numbers| numbers.length as u16)
}

/// The anchor's tag, and the main sequence's first sector and length in bytes.
pub fn anchor(bytes: &[u8]) -> Option<(Tag, u32, u32)> {
    let anchor = parsed(records_parse_anchor, bytes)?;
    let main = anchor.main_volume_descriptor_sequence;
    Some((anchor.tag, main.location, main.length))
}

/// The place of the file set that a logical volume descriptor names: its block, and the reference to its partition.
pub fn file_set(bytes: &[u8]) -> Option<(u32, u16)> {
    let place = parsed(records_parse_logical_volume, bytes)?.file_set_descriptor_location.location;
    Some((place.block, place.partition_ref))
}

/// A partition's number, its first sector and how many it has.
pub fn partition(bytes: &[u8]) -> Option<(u16, u32, u32)> {
    let partition = parsed(records_parse_partition, bytes)?;
    Some((partition.partition_number, partition.partition_starting_location, partition.partition_length))
}

pub fn file_entry(bytes: &[u8]) -> Option<FileEntry> {
    parsed(records_parse_file_entry, bytes)
}

pub fn file_identifier(bytes: &[u8]) -> Option<FileIdentifier> {
    parsed(records_parse_file_identifier, bytes)
}

/// The tag of an allocation extent's header, and how many bytes of descriptors stand behind the header.
pub fn header(bytes: &[u8]) -> Option<(Tag, usize)> {
    parsed(records_parse_aed, bytes).map(|aed| (aed.tag, aed.length_of_allocation_descriptors as usize))
}

/// What is needed of an allocation descriptor, of whichever kind.
pub struct Descriptor {
    pub length: u32,
    pub extent_type: u8,
    pub block: u32,
    /// A short_ad names none.
    pub partition: Option<u16>,
}

/// How many bytes a descriptor of this kind has; an embedded file has none.
pub fn descriptor_size(kind: u8) -> Option<usize> {
    [8, 16, 20].get(usize::from(kind)).copied()
}

pub fn descriptor(kind: u8, bytes: &[u8]) -> Option<Descriptor> {
    let named =
        |length, extent_type, place: LbAddr| Descriptor { length, extent_type, block: place.block, partition: Some(place.partition_ref) };
    match kind {
        0 => parsed(records_parse_short_ad, bytes).map(|ad| Descriptor {
            length: ad.length,
            extent_type: ad.extent_type,
            block: ad.block_location,
            partition: None,
        }),
        1 => parsed(records_parse_long_ad, bytes).map(|ad| named(ad.length, ad.extent_type, ad.location)),
        _ => parsed(records_parse_ext_ad, bytes).map(|ad| named(ad.length, ad.extent_type, ad.location)),
    }
}

/// The name of a d-string; empty where it is refused.
pub fn name(recorded: &[u8]) -> Vec<u8> {
    let mut name = [0; NAME];
    // SAFETY: the head of this module; the array is this function's.
    let written = unsafe { records_decode_dstring(recorded.as_ptr(), recorded.len(), name.as_mut_ptr(), name.len()) };
    name.get(..written.length as usize).unwrap_or_default().to_vec()
}

/// The name in a d-string field; none where it is refused.
pub fn field(bytes: &[u8]) -> Option<String> {
    let mut name = [0; NAME];
    // SAFETY: the head of this module; the array is this function's.
    let written = unsafe { records_decode_dstring_field(bytes.as_ptr(), bytes.len(), name.as_mut_ptr(), name.len()) };
    let name = name.get(..written.length as usize).filter(|_| written.answer == DONE)?;
    Some(String::from_utf8_lossy(name).into_owned())
}

/// The body check, as it is proved: `bytes` are those at hand from the descriptor on.
pub fn has_right_body(tag: Tag, bytes: &[u8]) -> bool {
    // SAFETY: the head of this module.
    unsafe { records_tag_body(tag, bytes.as_ptr(), bytes.len()) }
}

pub fn crc(bytes: &[u8]) -> u16 {
    // SAFETY: the head of this module.
    unsafe { records_crc(bytes.as_ptr(), bytes.len()) }
}

/// The place check, as it is proved.
pub fn is_in_place(tag: Tag, sector: u64, block: u32) -> bool {
    // SAFETY: values alone cross.
    unsafe { records_tag_in_place(tag, sector, block) }
}
