//! include/records.h: Parses and encodes the raw records of a UDF disc (ECMA-167, OSTA UDF), for C.
//!
//! Link target/staticlib/librecords_c.a, which `tools/archives proved` makes from the proved sources. Each call has the
//! contract of the call that it passes on, of a crate below.
//!
//! Nothing here allocates, keeps or frees memory. Lent pieces must not overlap. A piece of length 0 may have a null
//! pointer. No piece has more than PTRDIFF_MAX bytes.
//!
//! A record is parsed at the front of `bytes`; what follows it is ignored. Every call that parses or decodes returns an
//! answer. If it is refused, all its values are zero and `out` is unchanged. Fields have the names of ECMA-167 and are
//! as recorded, unless this header says otherwise. If `bytes` change during a call, the result may match no state of
//! `bytes`; the call stays inside the memory that it was lent, and writes nothing past the length that it returns.
//!
//! The numbers are those of vault.h. Used here: RECORDS_DONE, RECORDS_MALFORMED, RECORDS_NO_ROOM.
//!
//! Made by tools/faces.py from the comments and declarations of crates/records_c.
#![allow(missing_docs)]

/// Done.
pub const DONE: u64 = 0;
/// Too few bytes, or an invalid descriptor, tag, name or length.
pub const MALFORMED: u64 = 2;
/// The result has more bytes than `out`.
pub const NO_ROOM: u64 = 5;

structs! {
    records_extent_ad as ExtentAd, 8 aligned to 4 {
        0 length: u32,
        4 location: u32,
    }

    records_short_ad as ShortAd, 12 aligned to 4 {
        0 length: u32,
        4 extent_type: u8,
        8 block_location: u32,
    }

    /// A block of a partition.
    records_lb_addr as LbAddr, 8 aligned to 4 {
        /// Counted from the partition's start.
        0 block: u32,
        /// The partition.
        4 partition_ref: u16,
    }

    /// The place of something on the disc, such as the ICB of a file or a directory.
    records_long_ad as LongAd, 24 aligned to 4 {
        /// In bytes; below 2^30 if it was read from a disc.
        0 length: u32,
        /// 0 to 3 if it was read from a disc; 0 is recorded.
        4 extent_type: u8,
        /// The first block.
        8 location: LbAddr,
        /// As recorded.
        16 implementation_use: [u8; 6],
    }

    records_ext_ad as ExtAd, 28 aligned to 4 {
        0 length: u32,
        4 extent_type: u8,
        /// 30 bits of the recorded number.
        8 recorded_length: u32,
        12 information_length: u32,
        16 location: LbAddr,
        24 implementation_use: [u8; 2],
    }

    /// The answer, and how many bytes were written; 0 if it is a refusal.
    records_written as Written, 16 aligned to 8 {
        0 answer: u64,
        8 length: u64,
    }

    /// The id is a number. Parsing accepts only the ids above.
    records_tag as Tag, 16 aligned to 4 {
        0 id: u16,
        2 descriptor_version: u16,
        4 serial_number: u16,
        6 crc: u16,
        8 crc_length: u16,
        12 location: u32,
    }

    records_aed as Aed, 24 aligned to 4 {
        0 tag: Tag,
        16 previous_allocation_extent_location: u32,
        20 length_of_allocation_descriptors: u32,
    }

    records_icb_tag as IcbTag, 24 aligned to 4 {
        0 prior_recorded_entries: u32,
        4 strategy_type: u16,
        6 strategy_parameter: u16,
        8 max_entries: u16,
        /// 4: a directory.
        10 file_type: u8,
        12 parent_icb: LbAddr,
        20 flags: u16,
    }

    /// A file entry (id 261) or an extended one (266). The area of allocation descriptors, or the embedded file, is in
    /// `bytes` from `area_at` on. It is inside `bytes`, and is not looked at here. The object size, an enum in the
    /// entry, is passed as a bool and a number.
    records_file_entry as FileEntry, 128 aligned to 8 {
        0 tag: Tag,
        16 icb_tag: IcbTag,
        40 uid: u32,
        44 gid: u32,
        48 permissions: u32,
        52 file_link_count: u16,
        54 record_format: u8,
        55 record_display_attributes: u8,
        56 record_length: u32,
        64 information_length: u64,
        72 logical_blocks_recorded: u64,
        /// Whether there is one: an extended entry has it.
        80 has_object_size: bool,
        /// 0 if there is none.
        88 object_size: u64,
        96 length_of_extended_attributes: u32,
        100 length_of_allocation_descriptors: u32,
        /// The kind of the area: 0 short_ad, 1 long_ad, 2 ext_ad, 3 the file itself.
        104 kind: u8,
        112 area_at: usize,
        120 area_length: usize,
    }

    /// An entry of a directory (id 257). Its name, a d-string of `name_length` bytes, is at `name_at`; as UTF-8 it has
    /// `name_size` bytes. The next entry starts `total_size` bytes further.
    records_file_identifier as FileIdentifier, 80 aligned to 8 {
        0 tag: Tag,
        16 file_version_number: u16,
        /// 2: a directory; 4: deleted; 8: the parent.
        18 file_characteristics: u8,
        20 icb: LongAd,
        48 name_at: usize,
        56 name_length: usize,
        64 name_size: usize,
        72 total_size: usize,
    }

    records_anchor as Anchor, 32 aligned to 4 {
        0 tag: Tag,
        16 main_volume_descriptor_sequence: ExtentAd,
        24 reserve_volume_descriptor_sequence: ExtentAd,
    }

    /// The volume identifier is the label field as recorded.
    records_primary_volume as PrimaryVolume, 56 aligned to 4 {
        0 tag: Tag,
        16 volume_descriptor_sequence_number: u32,
        20 primary_volume_descriptor_number: u32,
        24 volume_identifier: [u8; 32],
    }

    /// The start and the length are in logical sectors.
    records_partition as Partition, 32 aligned to 4 {
        0 tag: Tag,
        16 volume_descriptor_sequence_number: u32,
        20 partition_flags: u16,
        22 partition_number: u16,
        24 partition_starting_location: u32,
        28 partition_length: u32,
    }

    /// The identifier is the label field as recorded.
    records_logical_volume as LogicalVolume, 208 aligned to 4 {
        0 tag: Tag,
        16 volume_descriptor_sequence_number: u32,
        20 logical_volume_identifier: [u8; 128],
        /// In bytes.
        148 logical_block_size: u32,
        152 file_set_descriptor_location: LongAd,
        /// In bytes.
        176 map_table_length: u32,
        180 number_of_partition_maps: u32,
        /// The first 24 bytes of the map table, as recorded; zeros past the end of the given bytes.
        184 partition_maps: [u8; 24],
    }

    records_file_set as FileSet, 40 aligned to 4 {
        0 tag: Tag,
        16 root_directory_icb: LongAd,
    }
}

/// The result of a call that parses: `records_X_answer`.
#[repr(C)]
#[derive(Debug, Clone, Copy, PartialEq, Eq)]
pub struct Answer<T> {
    /// A number of the table.
    pub answer: u64,
    /// Zeros if the call was refused.
    pub value: T,
}

layouts! {
    records_extent_ad_answer as Answer<ExtentAd>, 16 aligned to 8 { 0 answer, 8 value, }
    records_short_ad_answer as Answer<ShortAd>, 24 aligned to 8 { 0 answer, 8 value, }
    records_lb_addr_answer as Answer<LbAddr>, 16 aligned to 8 { 0 answer, 8 value, }
    records_long_ad_answer as Answer<LongAd>, 32 aligned to 8 { 0 answer, 8 value, }
    records_ext_ad_answer as Answer<ExtAd>, 40 aligned to 8 { 0 answer, 8 value, }
    records_tag_answer as Answer<Tag>, 24 aligned to 8 { 0 answer, 8 value, }
    records_aed_answer as Answer<Aed>, 32 aligned to 8 { 0 answer, 8 value, }
    records_icb_tag_answer as Answer<IcbTag>, 32 aligned to 8 { 0 answer, 8 value, }
    records_file_entry_answer as Answer<FileEntry>, 136 aligned to 8 { 0 answer, 8 value, }
    records_file_identifier_answer as Answer<FileIdentifier>, 88 aligned to 8 { 0 answer, 8 value, }
    records_anchor_answer as Answer<Anchor>, 40 aligned to 8 { 0 answer, 8 value, }
    records_primary_volume_answer as Answer<PrimaryVolume>, 64 aligned to 8 { 0 answer, 8 value, }
    records_partition_answer as Answer<Partition>, 40 aligned to 8 { 0 answer, 8 value, }
    records_logical_volume_answer as Answer<LogicalVolume>, 216 aligned to 8 { 0 answer, 8 value, }
    records_file_set_answer as Answer<FileSet>, 48 aligned to 8 { 0 answer, 8 value, }
}

/// The result of a call that encodes: `records_X_bytes`.
#[repr(C)]
#[derive(Debug, Clone, Copy, PartialEq, Eq)]
pub struct Encoded<const N: usize> {
    /// The record as recorded.
    pub bytes: [u8; N],
}

layouts! {
    records_extent_ad_bytes as Encoded<8>, 8 aligned to 1 { 0 bytes, }
    records_short_ad_bytes as Encoded<8>, 8 aligned to 1 { 0 bytes, }
    records_lb_addr_bytes as Encoded<6>, 6 aligned to 1 { 0 bytes, }
    records_long_ad_bytes as Encoded<16>, 16 aligned to 1 { 0 bytes, }
    records_ext_ad_bytes as Encoded<20>, 20 aligned to 1 { 0 bytes, }
    records_tag_bytes as Encoded<16>, 16 aligned to 1 { 0 bytes, }
    records_aed_bytes as Encoded<24>, 24 aligned to 1 { 0 bytes, }
}

unsafe extern "C" {
    pub fn records_parse_extent_ad(bytes: *const u8, bytes_length: usize) -> Answer<ExtentAd>;
    pub fn records_encode_extent_ad(value: ExtentAd) -> Encoded<8>;
    pub fn records_parse_short_ad(bytes: *const u8, bytes_length: usize) -> Answer<ShortAd>;
    pub fn records_encode_short_ad(value: ShortAd) -> Encoded<8>;
    pub fn records_parse_lb_addr(bytes: *const u8, bytes_length: usize) -> Answer<LbAddr>;
    pub fn records_encode_lb_addr(value: LbAddr) -> Encoded<6>;
    pub fn records_parse_long_ad(bytes: *const u8, bytes_length: usize) -> Answer<LongAd>;
    pub fn records_encode_long_ad(value: LongAd) -> Encoded<16>;
    pub fn records_parse_ext_ad(bytes: *const u8, bytes_length: usize) -> Answer<ExtAd>;
    pub fn records_encode_ext_ad(value: ExtAd) -> Encoded<20>;

    /// Writes the name of the d-string to the front of `out`.
    pub fn records_decode_dstring(bytes: *const u8, bytes_length: usize, out: *mut u8, out_length: usize) -> Written;

    /// Writes the name in the d-string field to the front of `out`.
    pub fn records_decode_dstring_field(bytes: *const u8, bytes_length: usize, out: *mut u8, out_length: usize) -> Written;

    pub fn records_parse_tag(bytes: *const u8, bytes_length: usize) -> Answer<Tag>;
    pub fn records_encode_tag(value: Tag) -> Encoded<16>;

    /// The place check: whether the tag's location is the number that it must be. `sector` and `block` are those that
    /// hold the descriptor's first byte, counted from the start of the disc and of its partition. Ids 256 to 266 go by
    /// the block, all others by the sector.
    pub fn records_tag_in_place(tag: Tag, sector: u64, block: u32) -> bool;

    /// The CRC of `bytes`, as a tag holds it for its descriptor's body: x^16 + x^12 + x^5 + 1, starting at 0, highest
    /// bit of a byte first.
    pub fn records_crc(bytes: *const u8, bytes_length: usize) -> u16;

    /// The body check: whether `bytes`, which start with the descriptor's tag in the first 16, hold as many bytes after
    /// it as the tag's CRC length says, and these have the tag's CRC. A CRC length of 0 has the CRC 0.
    pub fn records_tag_body(tag: Tag, bytes: *const u8, bytes_length: usize) -> bool;

    pub fn records_parse_aed(bytes: *const u8, bytes_length: usize) -> Answer<Aed>;
    pub fn records_encode_aed(value: Aed) -> Encoded<24>;
    pub fn records_parse_icb_tag(bytes: *const u8, bytes_length: usize) -> Answer<IcbTag>;
    pub fn records_parse_file_entry(bytes: *const u8, bytes_length: usize) -> Answer<FileEntry>;
    pub fn records_parse_file_identifier(bytes: *const u8, bytes_length: usize) -> Answer<FileIdentifier>;
    pub fn records_parse_anchor(bytes: *const u8, bytes_length: usize) -> Answer<Anchor>;
    pub fn records_parse_primary_volume(bytes: *const u8, bytes_length: usize) -> Answer<PrimaryVolume>;
    pub fn records_parse_partition(bytes: *const u8, bytes_length: usize) -> Answer<Partition>;
    pub fn records_parse_logical_volume(bytes: *const u8, bytes_length: usize) -> Answer<LogicalVolume>;
    pub fn records_parse_file_set(bytes: *const u8, bytes_length: usize) -> Answer<FileSet>;
}
