//! What is expected of a call on a raw record: what the original answers.

use super::original::number;
use super::raw::RawCall;
use super::raw_records::*;
use super::records::crc;
use crate::error::BlurayError;
use crate::udf;

type Came<T> = Result<T, BlurayError>;

/// The answer, flat: zeros where it is refused.
fn answer<O, T: Flat>(came: Came<O>, value: impl FnOnce(O) -> T) -> Vec<u8> {
    flat(&match came {
        Ok(o) => Answer { answer: 0, value: value(o) },
        Err(e) => Answer { answer: number(&e), value: zeros() },
    })
}

fn extent(a: udf::ExtentAd) -> ExtentAd {
    ExtentAd { length: a.length, location: a.location }
}

fn short(a: udf::ShortAd) -> ShortAd {
    ShortAd { length: a.length, extent_type: a.extent_type, block_location: a.block_location }
}

fn address(a: udf::LbAddr) -> LbAddr {
    LbAddr { block: a.block, partition_ref: a.partition_ref }
}

fn long(a: udf::LongAd) -> LongAd {
    let (location, implementation_use) = (address(a.location), a.implementation_use);
    LongAd { length: a.length, extent_type: a.extent_type, location, implementation_use }
}

fn ext(a: udf::ExtAd) -> ExtAd {
    ExtAd {
        length: a.length,
        extent_type: a.extent_type,
        recorded_length: a.recorded_length,
        information_length: a.information_length,
        location: address(a.location),
        implementation_use: a.implementation_use,
    }
}

fn tag(t: udf::DescriptorTag) -> Tag {
    Tag {
        id: t.id as u16,
        descriptor_version: t.descriptor_version,
        serial_number: t.serial_number,
        crc: t.crc,
        crc_length: t.crc_length,
        location: t.location,
    }
}

fn aed(a: udf::AllocationExtentDescriptor) -> Aed {
    Aed {
        tag: tag(a.tag),
        previous_allocation_extent_location: a.previous_allocation_extent_location,
        length_of_allocation_descriptors: a.length_of_allocation_descriptors,
    }
}

fn anchor(a: udf::AnchorVolumeDescriptorPointer) -> Anchor {
    Anchor {
        tag: tag(a.tag),
        main_volume_descriptor_sequence: extent(a.main_volume_descriptor_sequence),
        reserve_volume_descriptor_sequence: extent(a.reserve_volume_descriptor_sequence),
    }
}

/// The field in which an identifier is recorded: ours keeps it as it stands, the original has it decoded.
fn recorded<const N: usize>(bytes: &[u8], at: usize, identifier: &str) -> [u8; N] {
    let field: [u8; N] = bytes[at..at + N].try_into().unwrap();
    assert_eq!(udf::decode_dstring_field(&field).unwrap(), identifier, "the identifier is recorded elsewhere");
    field
}

fn primary(bytes: &[u8], d: udf::PrimaryVolumeDescriptor) -> PrimaryVolume {
    PrimaryVolume {
        tag: tag(d.tag),
        volume_descriptor_sequence_number: d.volume_descriptor_sequence_number,
        primary_volume_descriptor_number: d.primary_volume_descriptor_number,
        volume_identifier: recorded(bytes, 24, &d.volume_identifier),
    }
}

fn partition(d: udf::PartitionDescriptor) -> Partition {
    Partition {
        tag: tag(d.tag),
        volume_descriptor_sequence_number: d.volume_descriptor_sequence_number,
        partition_flags: d.partition_flags,
        partition_number: d.partition_number,
        partition_starting_location: d.partition_starting_location,
        partition_length: d.partition_length,
    }
}

fn number_at(bytes: &[u8], at: usize) -> u32 {
    u32::from_le_bytes(bytes[at..at + 4].try_into().unwrap())
}

fn logical(bytes: &[u8], d: udf::LogicalVolumeDescriptor) -> LogicalVolume {
    LogicalVolume {
        tag: tag(d.tag),
        volume_descriptor_sequence_number: d.volume_descriptor_sequence_number,
        logical_volume_identifier: recorded(bytes, 84, &d.logical_volume_identifier),
        logical_block_size: d.logical_block_size,
        file_set_descriptor_location: long(d.file_set_descriptor_location),
        // The original doesn't read the rest.
        map_table_length: number_at(bytes, 264),
        number_of_partition_maps: number_at(bytes, 268),
        partition_maps: std::array::from_fn(|i| bytes.get(440 + i).copied().unwrap_or(0)),
    }
}

fn icb_tag(t: udf::IcbTag) -> IcbTag {
    IcbTag {
        prior_recorded_entries: t.prior_recorded_entries,
        strategy_type: t.strategy_type,
        strategy_parameter: t.strategy_parameter,
        max_entries: t.max_entries,
        file_type: t.file_type,
        parent_icb: address(t.parent_icb),
        flags: t.flags,
    }
}

/// Where the area of an entry stands: behind the attributes, whose length is in the entry.
fn area(bytes: &[u8]) -> (usize, usize) {
    let prefix = if bytes[..2] == 266u16.to_le_bytes() { 216 } else { 176 };
    let at = |i: usize| u32::from_le_bytes(bytes[i..i + 4].try_into().unwrap()) as usize;
    (prefix + at(prefix - 8), at(prefix - 4))
}

/// The original parses the descriptors of the area too, and refuses one that it doesn't read by 4. Ours walks them later, so there the
/// original is asked again, with an area that ends at once.
fn entry(bytes: &[u8]) -> Came<udf::FileEntry> {
    match udf::FileEntry::parse(bytes) {
        Err(BlurayError::Unsupported(_)) => {
            let (mut ended, (at, length)) = (bytes.to_vec(), area(bytes));
            ended[at..at + length].fill(0);
            udf::FileEntry::parse(&ended)
        }
        came => came,
    }
}

fn file_entry(bytes: &[u8], e: udf::FileEntry) -> FileEntry {
    let (area_at, area_length) = area(bytes);
    if e.ad_type == udf::AdType::EmbeddedInIcb {
        assert_eq!(e.embedded_data, bytes[area_at..area_at + area_length], "the embedded file stands elsewhere");
    }
    FileEntry {
        tag: tag(e.tag),
        icb_tag: icb_tag(e.icb_tag),
        uid: e.uid,
        gid: e.gid,
        permissions: e.permissions,
        file_link_count: e.file_link_count,
        record_format: e.record_format,
        record_display_attributes: e.record_display_attributes,
        record_length: e.record_length,
        information_length: e.information_length,
        logical_blocks_recorded: e.logical_blocks_recorded,
        has_object_size: e.object_size.is_some(),
        object_size: e.object_size.unwrap_or(0),
        length_of_extended_attributes: e.length_of_extended_attributes,
        length_of_allocation_descriptors: e.length_of_allocation_descriptors,
        kind: e.ad_type as u8,
        area_at,
        area_length,
    }
}

fn identifier(bytes: &[u8], d: udf::FileIdentifierDescriptor) -> FileIdentifier {
    let name_at = 38 + u16::from_le_bytes([bytes[36], bytes[37]]) as usize;
    let name_length = bytes[19] as usize;
    let named = udf::decode_dstring(&bytes[name_at..name_at + name_length]).unwrap();
    assert_eq!(named, d.identifier, "the name is recorded elsewhere");
    FileIdentifier {
        tag: tag(d.tag),
        file_version_number: d.file_version_number,
        file_characteristics: d.file_characteristics,
        icb: long(d.icb),
        name_at,
        name_length,
        name_size: d.identifier.len(),
        total_size: d.total_size,
    }
}

/// A name in so much room: too little is refused by 5, behind every refusal of the original.
fn written(name: Came<String>, room: usize) -> Vec<u8> {
    let (answer, name) = match name {
        Err(e) => (number(&e), String::new()),
        Ok(name) if name.len() > room => (5, String::new()),
        Ok(name) => (0, name),
    };
    let mut said = flat(&Written { answer, length: name.len() as u64 });
    said.extend(name.bytes());
    said
}

fn original_tag(t: Tag) -> udf::DescriptorTag {
    udf::DescriptorTag {
        id: udf::TagId::from_raw(t.id).expect("an id that the original can hold"),
        descriptor_version: t.descriptor_version,
        serial_number: t.serial_number,
        crc: t.crc,
        crc_length: t.crc_length,
        location: t.location,
    }
}

fn original_address(a: LbAddr) -> udf::LbAddr {
    udf::LbAddr { block: a.block, partition_ref: a.partition_ref }
}

fn encoded_short(a: ShortAd) -> Vec<u8> {
    let record = udf::ShortAd { length: a.length, extent_type: a.extent_type, block_location: a.block_location };
    record.encode().to_vec()
}

fn encoded_long(a: LongAd) -> Vec<u8> {
    let (location, implementation_use) = (original_address(a.location), a.implementation_use);
    udf::LongAd { length: a.length, extent_type: a.extent_type, location, implementation_use }.encode().to_vec()
}

fn encoded_ext(a: ExtAd) -> Vec<u8> {
    let record = udf::ExtAd {
        length: a.length,
        extent_type: a.extent_type,
        recorded_length: a.recorded_length,
        information_length: a.information_length,
        location: original_address(a.location),
        implementation_use: a.implementation_use,
    };
    record.encode().to_vec()
}

fn encoded_aed(a: Aed) -> Vec<u8> {
    let record = udf::AllocationExtentDescriptor {
        tag: original_tag(a.tag),
        previous_allocation_extent_location: a.previous_allocation_extent_location,
        length_of_allocation_descriptors: a.length_of_allocation_descriptors,
    };
    record.encode().to_vec()
}

/// The record that is to be encoded.
fn given<T: Flat>(mut input: &[u8]) -> T {
    T::take(&mut input)
}

/// The place check, which the original doesn't have, from the rule's words (docs/RULES.md, 9.7): ids 256 to 266 go by the block, and every other
/// id by the sector.
fn in_place(mut given: &[u8]) -> Vec<u8> {
    let (tag, sector, block) = (Tag::take(&mut given), u64::take(&mut given), u32::take(&mut given));
    let stands = match tag.id {
        256..=266 => block.into(),
        _ => sector,
    };
    flat(&u64::from(stands == u64::from(tag.location)))
}

/// The body check, which it doesn't have either, from the rule's words: as many bytes as the CRC length behind the 16 of the tag, and the
/// tag's CRC for them.
fn right_body(mut given: &[u8]) -> Vec<u8> {
    let tag = Tag::take(&mut given);
    let body = given.get(16..16 + usize::from(tag.crc_length));
    flat(&u64::from(body.is_some_and(|body| crc(body) == tag.crc)))
}

/// What the original answers, flat as ours answers.
pub fn expected(call: RawCall, input: &[u8], room: usize) -> Vec<u8> {
    use RawCall::*;
    match call {
        ParseExtentAd => answer(udf::ExtentAd::parse(input), extent),
        ParseShortAd => answer(udf::ShortAd::parse(input), short),
        ParseLbAddr => answer(udf::LbAddr::parse(input), address),
        ParseLongAd => answer(udf::LongAd::parse(input), long),
        ParseExtAd => answer(udf::ExtAd::parse(input), ext),
        ParseTag => answer(udf::DescriptorTag::parse(input), tag),
        ParseAed => answer(udf::AllocationExtentDescriptor::parse(input), aed),
        ParseAnchor => answer(udf::AnchorVolumeDescriptorPointer::parse(input), anchor),
        ParsePrimaryVolume => answer(udf::PrimaryVolumeDescriptor::parse(input), |d| primary(input, d)),
        ParsePartition => answer(udf::PartitionDescriptor::parse(input), partition),
        ParseLogicalVolume => answer(udf::LogicalVolumeDescriptor::parse(input), |d| logical(input, d)),
        ParseFileSet => {
            answer(udf::FileSetDescriptor::parse(input), |d| FileSet { tag: tag(d.tag), root_directory_icb: long(d.root_directory_icb) })
        }
        ParseIcbTag => answer(udf::IcbTag::parse(input), icb_tag),
        ParseFileEntry => answer(entry(input), |e| file_entry(input, e)),
        ParseFileIdentifier => answer(udf::FileIdentifierDescriptor::parse(input), |d| identifier(input, d)),
        DecodeDstring => written(udf::decode_dstring(input), room),
        DecodeDstringField => written(udf::decode_dstring_field(input), room),
        TagInPlace => in_place(input),
        TagBody => right_body(input),
        Crc => [flat(&0u64), flat(&crc(input))].concat(),
        EncodeExtentAd => {
            let a: ExtentAd = given(input);
            udf::ExtentAd { length: a.length, location: a.location }.encode().to_vec()
        }
        EncodeShortAd => encoded_short(given(input)),
        EncodeLbAddr => original_address(given(input)).encode().to_vec(),
        EncodeLongAd => encoded_long(given(input)),
        EncodeExtAd => encoded_ext(given(input)),
        EncodeTag => original_tag(given(input)).encode().to_vec(),
        EncodeAed => encoded_aed(given(input)),
    }
}
