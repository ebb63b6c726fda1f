//! The original's records by their names: what stands on the sample show, and both ways.

mod common;

use common::{SECTOR, TestDisc, continued, short_ad, show};
use strandlodge::udf::*;
use strandlodge::{Disc, Refusal};

fn sector(image: &[u8], number: usize) -> &[u8] {
    &image[number * SECTOR..][..SECTOR]
}

#[test]
fn the_show_s_descriptors_are_parsed() {
    let image = show();
    let anchor = AnchorVolumeDescriptorPointer::parse(sector(&image, AVDP_SECTOR as usize)).unwrap();
    assert_eq!((AVDP_SECTOR, strandlodge::AVDP_SECTOR, SECTOR_SIZE), (256, 256, 2048));
    assert_eq!((anchor.tag.id, anchor.tag.location), (TagId::AnchorVolumeDescriptorPointer, 256));
    assert_eq!(anchor.main_volume_descriptor_sequence.location, 32);
    let primary = PrimaryVolumeDescriptor::parse(sector(&image, 32)).unwrap();
    assert_eq!((primary.volume_identifier.as_str(), primary.volume_descriptor_sequence_number), ("SHOW 1", 1));
    let partition = PartitionDescriptor::parse(sector(&image, 33)).unwrap();
    assert_eq!((partition.partition_number, partition.partition_starting_location, partition.partition_length), (5, 288, 32));
    let logical = LogicalVolumeDescriptor::parse(sector(&image, 34)).unwrap();
    assert_eq!((logical.logical_volume_identifier.as_str(), logical.logical_block_size), ("LOGICAL", 2048));
    let place = logical.file_set_descriptor_location.location;
    let set = FileSetDescriptor::parse(sector(&image, 288 + place.block as usize)).unwrap();
    assert_eq!(set.root_directory_icb, Disc::open(&image).unwrap().root_directory_icb());
    assert!(set.tag.has_right_body(sector(&image, 288 + place.block as usize)) && set.tag.is_in_place(0, place.block));
    // Another descriptor, too few bytes, and a wrong checksum.
    assert_eq!(FileSetDescriptor::parse(sector(&image, 256)).unwrap_err().why, Refusal::Malformed);
    assert_eq!(PartitionDescriptor::parse(&sector(&image, 33)[..195]).unwrap_err().why, Refusal::Malformed);
    let mut tag = image[256 * SECTOR..][..16].to_vec();
    tag[4] ^= 1;
    assert_eq!(DescriptorTag::parse(&tag).unwrap_err().sectors, 0);
}

#[test]
fn an_entry_has_the_extents_that_a_call_gives() {
    let image = show();
    let vault = Disc::open(&image).unwrap();
    for path in ["SHOW", "SHOW/9", "SHOW/10.1A", "SHOW/11"] {
        let icb = vault.lookup(path).unwrap();
        let entry = FileEntry::parse(sector(&image, vault.icb_sector(icb).unwrap() as usize)).unwrap();
        assert_eq!((entry.extents(), entry.continuation, entry.is_extended()), (vault.extents(icb).unwrap(), None, false), "{path}");
        assert_eq!(entry.information_length, vault.read_file(icb).unwrap().len() as u64);
    }
    let bytes = vault.read_file(vault.lookup("SHOW").unwrap()).unwrap();
    let (mut rest, mut names) = (&bytes[..], Vec::new());
    while !rest.is_empty() {
        let one = FileIdentifierDescriptor::parse(rest).unwrap();
        assert!(!one.is_deleted() && one.is_directory() == one.is_parent());
        rest = &rest[one.total_size..];
        if !one.is_parent() {
            names.push(one.identifier);
        }
    }
    assert_eq!(names, ["9", "10.1A", "10.1a", "11"]);
}

/// An entry with its area behind it, and the sector that it stands in.
fn laid(kind: u8, area: &[u8]) -> Vec<u8> {
    let mut disc = TestDisc::new();
    let block = disc.entry(kind, area, 7);
    sector(&disc.0, 288 + block as usize).to_vec()
}

#[test]
fn areas_are_cut_into_descriptors() {
    let entry = FileEntry::parse(&laid(0, &[short_ad(5, 20), continued(2048, 21), short_ad(6, 22)].concat())).unwrap();
    assert_eq!((entry.ad_type, entry.short_ads.len(), entry.extents()[0].block), (AdType::Short, 1, 20));
    assert_eq!(entry.continuation, Some(AdContinuation { length: 2048, block: 21, partition_ref: None }));
    // A length of 0 ends the area, and bytes left over aren't looked at.
    let entry = FileEntry::parse(&laid(0, &[&short_ad(5, 20)[..], &short_ad(0, 21), &short_ad(6, 22), &[1; 3]].concat())).unwrap();
    assert_eq!((entry.short_ads.len(), entry.continuation), (1, None));
    let place = LbAddr { block: 9, partition_ref: 5 };
    let long = LongAd { length: 3000, extent_type: 1, location: place, implementation_use: [1; 6] };
    let entry = FileEntry::parse(&laid(1, &long.encode())).unwrap();
    let extent = AllocExtent { length: 3000, extent_type: 1, block: 9, partition_ref: Some(5) };
    assert_eq!((entry.ad_type, entry.long_ads, entry.ext_ads.len()), (AdType::Long, vec![long], 0));
    let mut ext = ExtAd {
        length: 4096,
        extent_type: 0,
        recorded_length: 3000,
        information_length: 3000,
        location: place,
        implementation_use: [2; 2],
    };
    let entry = FileEntry::parse(&laid(2, &ext.encode())).unwrap();
    assert_eq!((entry.ad_type, entry.extents()), (AdType::Extended, vec![AllocExtent { extent_type: 0, ..extent }]));
    ext.recorded_length -= 1;
    assert_eq!(FileEntry::parse(&laid(2, &ext.encode())).unwrap_err().why, Refusal::Unsupported);
    let entry = FileEntry::parse(&laid(3, b"embedded")).unwrap();
    assert_eq!((entry.ad_type, &entry.embedded_data[..], entry.extents().len()), (AdType::EmbeddedInIcb, &b"embedded"[..], 0));
    assert_eq!(FileEntry::parse(&laid(4, b"")).unwrap_err().why, Refusal::Malformed);
}

#[test]
fn what_is_encoded_is_parsed() {
    let place = LbAddr { block: u32::MAX, partition_ref: 0x1234 };
    let extent = ExtentAd { length: 1, location: u32::MAX };
    let short = ShortAd { length: 0x3fff_ffff, extent_type: 2, block_location: 7 };
    let long = LongAd { length: 0x3fff_fffe, extent_type: 3, location: place, implementation_use: [1, 2, 3, 4, 5, 6] };
    let ext = ExtAd {
        length: 4096,
        extent_type: 1,
        recorded_length: 5,
        information_length: u32::MAX,
        location: place,
        implementation_use: [8, 9],
    };
    assert_eq!(LbAddr::parse(&place.encode()), Ok(place));
    assert_eq!(ExtentAd::parse(&extent.encode()), Ok(extent));
    assert_eq!(ShortAd::parse(&short.encode()), Ok(short));
    assert_eq!(LongAd::parse(&long.encode()), Ok(long));
    assert_eq!(ExtAd::parse(&ext.encode()), Ok(ext));
    let tag =
        DescriptorTag { id: TagId::AllocationExtent, descriptor_version: 3, serial_number: 1, crc: 0xabcd, crc_length: 8, location: 77 };
    let header = AllocationExtentDescriptor { tag, previous_allocation_extent_location: 5, length_of_allocation_descriptors: 16 };
    assert_eq!(AllocationExtentDescriptor::parse(&header.encode()), Ok(header));
    assert_eq!(IcbTag::parse(&sector(&show(), 293)[16..]).unwrap().strategy_type, 4);
    for short in [&place.encode()[..5], &extent.encode()[..7], &long.encode()[..15]] {
        assert_eq!(LongAd::parse(short).unwrap_err().why, Refusal::Malformed);
    }
}

#[test]
fn names_are_decoded() {
    assert_eq!(decode_dstring(b"\x08caf\xe9").unwrap(), "café");
    assert_eq!(decode_dstring(&[16, 0x65, 0xe5, 0x67, 0x2c]).unwrap(), "日本");
    assert_eq!((decode_dstring(b"").unwrap(), decode_dstring(b"\xfe1").unwrap()), (String::new(), String::new()));
    assert_eq!(decode_dstring(b"\x09x").unwrap_err().why, Refusal::Malformed);
    assert_eq!(decode_dstring_field(b"\x08ab\0\0\x03").unwrap(), "ab");
    assert_eq!(decode_dstring_field(b"\x08ab\x04").unwrap_err().why, Refusal::Malformed);
    // Long ones, which have twice as many bytes as recorded.
    assert_eq!(decode_dstring(&[&[8][..], &[0xe9; 5000]].concat()).unwrap(), "é".repeat(5000));
}

#[test]
fn ids_have_names() {
    for number in 0..300 {
        let listed = (1..=9).contains(&number) || (256..=266).contains(&number);
        assert_eq!(TagId::from_raw(number).map(|id| id as u16), listed.then_some(number));
    }
    assert_eq!((TagId::FileEntry.name(), TagId::Terminating.name()), ("file entry", "terminating descriptor"));
    assert_eq!(AdType::from_flags(0xfff9).unwrap(), AdType::Long);
    assert_eq!(AdType::from_flags(4).unwrap_err().why, Refusal::Malformed);
}
