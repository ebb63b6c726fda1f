//! Volumes whose partitions are found through their maps: a disc with two partitions, discs with one whose number isn't 0, and tables that
//! aren't read.

mod common;

use common::command::Folder;
use common::{SECTOR, VOLUME_BODY, continued, hold_runs, noise, seal, sealed, short_ad, show};
use strandlodge::{Asked, Cause, Counted, How, Kind, LbAddr, LongAd, MapForm, PartitionMap, Refusal, map_table, volume_descriptors};

const MAPS: How = How { highest: false, checked: false, maps: true };

/// Where the two partitions start, by reference: partition 5 and partition 9.
const STARTS: [usize; 2] = [288, 400];
const NUMBERS: [u16; 2] = [5, 9];

/// A place: a block, and a reference.
type Place = (u32, u16);

struct TestDisc(Vec<u8>);

/// A map of type 1.
fn map(volume: u16, number: u16) -> [u8; 6] {
    let ([a, b], [c, d]) = (volume.to_le_bytes(), number.to_le_bytes());
    [1, 6, a, b, c, d]
}

/// A long_ad (ECMA-167 4/14.14.2).
fn long_ad(length: usize, (block, reference): Place) -> Vec<u8> {
    [&short_ad(length, block)[..], &reference.to_le_bytes(), &[0; 6]].concat()
}

/// A descriptor of the partition, with its location and its CRC.
fn located(mut whole: Vec<u8>, block: u32) -> Vec<u8> {
    whole[12..16].copy_from_slice(&block.to_le_bytes());
    sealed(whole)
}

fn tag(id: u16) -> Vec<u8> {
    [&id.to_le_bytes()[..], &[0; 14]].concat()
}

/// A file identifier (4/14.4), in a directory of which the byte stands in this block; none is the parent's.
fn identifier(name: &str, icb: Place, marks: u8, block: u32) -> Vec<u8> {
    let name = if name.is_empty() { String::new() } else { format!("\u{8}{name}") };
    let head = [&tag(257)[..], &[1, 0, marks, name.len() as u8], &long_ad(SECTOR, icb), &[0; 2], name.as_bytes()].concat();
    let length = head.len().next_multiple_of(4);
    located([head, vec![0; length]].concat()[..length].to_vec(), block)
}

impl TestDisc {
    /// The sample show's volume structure over two empty partitions, with these bytes for a map table that says this number of maps.
    fn new(maps: u32, table: &[u8], file_set: Place) -> TestDisc {
        let mut image = show();
        image.truncate(STARTS[0] * SECTOR);
        image.resize(440 * SECTOR, 0);
        let mut disc = TestDisc(image);
        // The terminating descriptor makes room for the second partition's.
        disc.0.copy_within(35 * SECTOR..36 * SECTOR, 36 * SECTOR);
        disc.0.copy_within(33 * SECTOR..34 * SECTOR, 35 * SECTOR);
        disc.volume(36, &[]);
        disc.volume(35, &[(16, &4u32.to_le_bytes()), (22, &NUMBERS[1].to_le_bytes()), (188, &(STARTS[1] as u32).to_le_bytes())]);
        let length = (table.len() as u32).to_le_bytes();
        disc.volume(34, &[(248, &long_ad(SECTOR, file_set)), (264, &length), (268, &maps.to_le_bytes()), (440, table)]);
        disc
    }

    /// Writes bytes into a descriptor of the volume, with its location, and sums it again.
    fn volume(&mut self, sector: usize, fields: &[(usize, &[u8])]) {
        let whole = &mut self.0[sector * SECTOR..][..SECTOR];
        fields.iter().for_each(|(at, bytes)| whole[*at..][..bytes.len()].copy_from_slice(bytes));
        whole[12..16].copy_from_slice(&(sector as u32).to_le_bytes());
        seal(whole, VOLUME_BODY);
    }

    fn at((block, reference): Place) -> usize {
        (STARTS[usize::from(reference)] + block as usize) * SECTOR
    }

    fn lay(&mut self, place: Place, bytes: &[u8]) {
        self.0[TestDisc::at(place)..][..bytes.len()].copy_from_slice(bytes);
    }

    fn file_set(&mut self, place: Place, root: Place) {
        let mut whole = tag(256);
        whole.resize(512, 0);
        whole[400..416].copy_from_slice(&long_ad(SECTOR, root));
        self.lay(place, &located(whole, place.0));
    }

    /// A file entry (4/14.9) with an area of this kind.
    fn entry(&mut self, place: Place, kind: u8, area: &[u8], length: usize) {
        let mut entry = tag(261);
        entry.resize(176, 0);
        entry[34] = kind;
        entry[56..64].copy_from_slice(&(length as u64).to_le_bytes());
        entry[172..].copy_from_slice(&(area.len() as u32).to_le_bytes());
        self.lay(place, &located([&entry, area].concat(), place.0));
    }
}

fn near() -> Vec<u8> {
    noise(3000)
}

fn far() -> Vec<u8> {
    noise(7000)[4000..].to_vec()
}

const DEEP: &[u8] = b"in the second partition";

/// A disc with a file set in the second partition, whose root is in the first: `near` stands in both partitions by long_ads, `far` in the
/// second by short_ads, over a continuation; FOLDER is an entry of the second with its identifiers in the first; `lost` has a reference that
/// no map has.
fn two() -> TestDisc {
    let table = [map(1, NUMBERS[0]), map(1, NUMBERS[1])].concat();
    let mut disc = TestDisc::new(2, &table, (0, 1));
    disc.file_set((0, 1), (3, 0));
    let names = [
        identifier("", (3, 0), 10, 3),
        identifier("near", (4, 0), 0, 3),
        identifier("far", (1, 1), 0, 3),
        identifier("FOLDER", (4, 1), 2, 3),
        identifier("lost", (1, 2), 0, 3),
    ];
    disc.entry((3, 0), 3, &names.concat(), names.concat().len());
    disc.entry((4, 0), 1, &[long_ad(2048, (5, 0)), long_ad(952, (9, 1))].concat(), 3000);
    disc.lay((5, 0), &near()[..2048]);
    disc.lay((9, 1), &near()[2048..]);
    disc.entry((1, 1), 0, &[short_ad(2048, 2), continued(32, 3)].concat(), 3000);
    disc.lay((2, 1), &far()[..2048]);
    let more = located([&tag(258)[..], &[0; 4], &8u32.to_le_bytes(), &short_ad(952, 10)].concat(), 3);
    disc.lay((3, 1), &more);
    disc.lay((10, 1), &far()[2048..]);
    let names = [identifier("", (3, 0), 10, 7), identifier("deep", (6, 1), 0, 7)].concat();
    disc.entry((4, 1), 1, &long_ad(names.len(), (7, 0)), names.len());
    disc.lay((7, 0), &names);
    disc.entry((6, 1), 3, DEEP, DEEP.len());
    disc
}

/// A disc with one partition, of number 5, which its one map leads to; every reference is 0, as ECMA-167 has it.
fn one() -> TestDisc {
    let mut disc = TestDisc::new(1, &map(1, NUMBERS[0]), (2, 0));
    disc.file_set((2, 0), (3, 0));
    let names = identifier("cue", (4, 0), 0, 3);
    disc.entry((3, 0), 3, &names, names.len());
    disc.entry((4, 0), 3, b"a look", 6);
    disc
}

#[test]
fn references_are_resolved_each_by_its_own() {
    let image = two().0;
    for how in [MAPS, How { checked: true, ..MAPS }, How { highest: true, ..MAPS }] {
        let vault = Counted::open_as(&image, how).unwrap();
        assert_eq!((vault.how(), vault.sectors, vault.maps().len()), (how, 7, 2));
        let each = |i: usize| PartitionMap { volume: 1, number: NUMBERS[i], start: STARTS[i] as u64 };
        assert_eq!(vault.maps(), [each(0), each(1)]);
        // The mount's own is the file set's.
        assert_eq!((vault.partition_start_sector(), vault.partition_number()), (400, 9));
        for (path, bytes) in [("near", near()), ("far", far()), ("FOLDER/deep", DEEP.to_vec())] {
            assert_eq!(vault.read_path(path).unwrap().value, bytes, "{path}");
            hold_runs(&vault, vault.lookup(path).unwrap().value);
        }
        let lost = vault.lookup("lost").unwrap();
        hold_runs(&vault, lost.value);
        assert_eq!(vault.read_file(lost).unwrap_err().why, Refusal::Unsupported);
        assert_eq!(vault.label(), Counted::label_of(&image, how));
        assert_eq!(vault.label().unwrap().value, "SHOW 1");
    }
    // By the partition's number the file set is elsewhere.
    assert_eq!(Counted::open(&image).unwrap_err().why, Refusal::Unsupported);
}

/// The bytes of a file by its extents, cut to its length.
fn by_extents(image: &[u8], vault: &Counted, icb: LongAd) -> Vec<u8> {
    let mut bytes = Vec::new();
    for extent in vault.extents(icb).unwrap() {
        let at = vault.extent_sector(icb, &extent).unwrap() as usize * SECTOR;
        bytes.extend_from_slice(&image[at..at + extent.length as usize]);
    }
    bytes
}

#[test]
fn extents_are_found_in_the_image() {
    let image = two().0;
    let vault = Counted::open_as(&image, MAPS).unwrap();
    for (path, bytes, entry) in [("near", near(), 292), ("far", far(), 401)] {
        let icb = vault.lookup(path).unwrap().value;
        assert_eq!((by_extents(&image, &vault, icb), vault.icb_sector(icb)), (bytes, Some(entry)), "{path}");
    }
    assert_eq!(vault.sector_of(LbAddr { block: u32::MAX, partition_ref: 1 }), Some(400 + u64::from(u32::MAX)));
    assert_eq!(vault.sector_of(LbAddr { block: 0, partition_ref: 2 }), None);
    assert_eq!(vault.icb_sector(vault.lookup("lost").unwrap()), None);
    // Without maps: by the partition's number, and any reference of an ICB.
    let image = show();
    let vault = Counted::open(&image).unwrap();
    let icb = vault.lookup("SHOW/11").unwrap().value;
    assert_eq!(by_extents(&image, &vault, icb), vault.read_file(icb).unwrap().value);
    assert_eq!((vault.maps(), vault.icb_sector(icb)), (vec![], Some(299)));
    let elsewhere = LongAd { location: LbAddr { partition_ref: 1, ..icb.location }, ..icb };
    assert_eq!((vault.icb_sector(elsewhere), vault.sector_of(elsewhere.location)), (Some(299), None));
}

#[test]
fn of_each_partition_number_one_descriptor_prevails() {
    let image = two().0;
    let prevail = |how| volume_descriptors(&image, how).iter().filter(|one| one.prevails && one.kind == Kind::Partition).count();
    assert_eq!((prevail(How::default()), prevail(MAPS), prevail(How { highest: true, ..MAPS })), (1, 2, 2));
    // The same descriptors are shown where the table is refused, to the last.
    let mut bad = TestDisc(image.clone());
    bad.volume(34, &[(264, &[11])]);
    assert_eq!(Counted::open_as(&bad.0, MAPS).unwrap_err().why, Refusal::Malformed);
    assert_eq!(volume_descriptors(&bad.0, MAPS), volume_descriptors(&image, MAPS));
}

/// Each with how opening through the maps is refused, and how the table is shown.
#[test]
fn tables_that_are_not_read() {
    let plain = |number, start| MapForm::Plain { volume: 1, number, start };
    let mut virtual_map = [[2, 64, 0, 0, 0].as_slice(), b"*UDF Virtual Partition"].concat();
    virtual_map.resize(64, 0);
    let other = MapForm::Other { kind: 2, length: 64, identifier: b"*UDF Virtual Partition".to_vec() };
    let known = plain(5, Some(288));
    let five = [map(1, 5); 5].concat();
    let cases = [
        (5, five.clone(), (2, 0), Refusal::Unsupported, vec![known.clone(); 5]),
        (2, map(1, 5).to_vec(), (2, 0), Refusal::Malformed, vec![known.clone()]),
        (2, [&map(1, 5), &virtual_map[..]].concat(), (2, 0), Refusal::Unsupported, vec![known.clone(), other]),
        (1, map(1, 6).to_vec(), (2, 0), Refusal::Unsupported, vec![plain(6, None)]),
        (1, map(1, 5).to_vec(), (2, 1), Refusal::Unsupported, vec![known.clone()]),
        (0, vec![], (2, 0), Refusal::Unsupported, vec![]),
        (1, vec![0; 1608], (2, 0), Refusal::Unsupported, vec![]),
        (1, vec![1, 7, 1, 0, 5, 0, 0], (2, 0), Refusal::Unsupported, vec![MapForm::Other { kind: 1, length: 7, identifier: vec![] }]),
    ];
    for (maps, table, file_set, why, found) in cases {
        let image = TestDisc::new(maps, &table, file_set).0;
        assert_eq!(Counted::open_as(&image, MAPS).unwrap_err().why, why, "{maps} {table:?}");
        let shown = map_table(&image, How::default()).unwrap();
        assert_eq!((shown.maps, shown.length, shown.found), (maps, table.len() as u32, found));
    }
    // Of one that passes its sector, what stands in it is shown.
    let mut disc = one();
    disc.volume(34, &[(264, &1609u32.to_le_bytes())]);
    let shown = map_table(&disc.0, MAPS).unwrap();
    assert_eq!((Counted::open_as(&disc.0, MAPS).unwrap_err().why, shown.is_whole()), (Refusal::Malformed, false));
    assert_eq!(shown.found, [known]);
    assert_eq!((map_table(&[], MAPS), map_table(&noise(300 * SECTOR), MAPS)), (None, None));
}

fn written(image: &[u8]) -> Folder {
    let folder = Folder::new();
    folder.write("a.img", image);
    folder
}

#[test]
fn every_command_that_opens_goes_through_the_maps() {
    let folder = written(&two().0);
    let says = |words: &[&str], out: &str| {
        let said = folder.vault(&[words, &["--maps"]].concat());
        assert_eq!((said.status, said.out.as_str(), said.error.as_str()), (0, out, ""), "{words:?}");
        // Without, the file set isn't in the partition.
        let plain = folder.vault(words);
        assert_eq!(plain.status, 4, "{words:?}");
        assert!(plain.error.contains("(refusal 4); --maps opens it, through its partition maps; the last sector"), "{plain:?}");
    };
    says(&["label", "a.img"], "SHOW 1\n");
    says(&["ls", "a.img"], "near\nfar\nFOLDER/\nlost\n");
    says(&["ls", "a.img", "FOLDER"], "deep\n");
    says(&["cat", "a.img", "FOLDER/deep"], "in the second partition");
    says(&["cat", "--checked", "a.img", "FOLDER/deep"], "in the second partition");
    says(&["get", "a.img", "far", "copy"], "");
    assert_eq!(std::fs::read(folder.at("copy")).unwrap(), far());
    says(
        &["stat", "a.img", "near"],
        "path     near\nentry    near\nkind     file\nicb      block 4, partition 0, 2048 bytes, type 0\n\
         length   3000 bytes, as its entry says\nread     3000 bytes\nstorage  extents: 2\n\
         extent   2048 bytes, type 0 (recorded), block 5, partition 0, sector 293\n\
         extent   952 bytes, type 0 (recorded), block 9, partition 1, sector 409\n\
         sectors  open 7, lookup 1, read_directory 1, part 1, extents 1, measure 3\n",
    );
    assert_eq!(folder.vault(&["cat", "a.img", "lost", "--maps"]).status, 4);
    assert_eq!(folder.vault(&["probe", "a.img", "--maps"]).status, folder.vault(&["probe", "a.img"]).status);
}

#[test]
fn the_maps_of_a_volume_are_shown() {
    let folder = written(&two().0);
    let maps = "maps     2, in 12 bytes\nmap      0, volume 1, partition 5, sector 288\nmap      1, volume 1, partition 9, sector 400\n";
    let said = folder.vault(&["stat", "--maps", "a.img"]);
    assert_eq!((said.status, said.error.as_str()), (0, ""));
    assert!(said.out.contains(maps) && said.out.contains("start    sector 400, partition 9\n"), "{said:?}");
    // Where it can't be opened they are shown all the same, and one that isn't read says so.
    let said = folder.vault(&["stat", "a.img"]);
    assert!(said.status == 4 && said.out.ends_with(maps), "{said:?}");
    let mut virtual_map = [&map(1, 5)[..], &[2, 64, 0, 0, 0], b"*UDF Virtual Partition"].concat();
    virtual_map.resize(70, 0);
    let folder = written(&TestDisc::new(2, &virtual_map, (0, 1)).0);
    let said = folder.vault(&["stat", "a.img", "--maps"]);
    assert!(said.out.ends_with("map      1, type 2 (*UDF Virtual Partition), 64 bytes: not supported\n"), "{said:?}");
    // No way out is said where the maps are none either.
    for said in [said, folder.vault(&["ls", "a.img"])] {
        let why = "partition map 1 is of type 2 (*UDF Virtual Partition); only type 1 is supported (refusal 4); the last sector asked for was 36,";
        assert!(said.status == 4 && said.error.contains(why) && !said.error.contains("--maps"), "{said:?}");
    }
}

#[test]
fn a_partition_whose_number_is_not_its_reference() {
    let folder = written(&one().0);
    let plain = folder.vault(&["cat", "a.img", "cue"]);
    assert!(plain.status == 4 && plain.error.contains("; --maps opens it"), "{plain:?}");
    assert_eq!(folder.vault(&["cat", "--maps", "a.img", "cue"]).out, "a look");
    assert_eq!(folder.vault(&["check", "--maps", "a.img"]).out, "10 descriptors, each in place and with a right body\n");
}

/// Through the maps a reference that none has is the cause: of an ICB, of an extent, and of a continuation.
#[test]
fn a_reference_that_no_map_has_is_the_cause() {
    let mut disc = two();
    disc.entry((4, 0), 1, &[long_ad(2048, (5, 0)), long_ad(952, (9, 7))].concat(), 3000);
    disc.entry((1, 1), 1, &long_ad(32 | 3 << 30, (3, 8)), 3000);
    let vault = Counted::open_as(&disc.0, MAPS).unwrap();
    for (path, reference, sector) in [("lost", 2, None), ("near", 7, Some(293)), ("far", 8, Some(401))] {
        let icb = vault.lookup(path).unwrap().value;
        let why = vault.diagnose(Asked::ReadFile(icb), &vault.read_file(icb).unwrap_err());
        assert_eq!((why.cause, why.place.map(|place| place.sector)), (Some(Cause::NoMap { reference, maps: 2 }), sector), "{path}");
    }
}

#[test]
fn check_walks_through_the_maps() {
    let disc = two();
    let lost = "/lost: can't be read: partition reference 2 leads to no partition map; there are 2 (refusal 4)\n";
    let sentence = |misplaced: u32, ruined: u32| {
        format!("vault: a.img: descriptors: 20, not in place: {misplaced}, with a wrong body: {ruined}; places that can't be read: 1\n")
    };
    let said = written(&disc.0).vault(&["check", "--maps", "a.img"]);
    assert_eq!((said.status, said.out.as_str(), said.error), (67, lost, sentence(0, 0)));
    // The tag's location, and a bit of the body, of one descriptor of each kind.
    for (place, what) in [
        ((0, 1), "the volume: file set descriptor (id 256)"),
        ((3, 0), "/: file entry (id 261)"),
        ((4, 0), "/near: file entry (id 261)"),
        ((1, 1), "/far: file entry (id 261)"),
        ((3, 1), "/far: allocation extent descriptor (id 258)"),
        ((4, 1), "/FOLDER: file entry (id 261)"),
        ((7, 0), "/FOLDER/..: file identifier (id 257)"),
        ((6, 1), "/FOLDER/deep: file entry (id 261)"),
    ] {
        let at = TestDisc::at(place);
        let stands = format!("block {} (sector {})", place.0, at / SECTOR);
        let mut moved = disc.0.clone();
        moved[at + 12] ^= 64;
        common::mend(&mut moved[at..]);
        let said = written(&moved).vault(&["check", "--maps", "a.img"]);
        let line = format!("{what} says {}, stands in {stands}\n", place.0 ^ 64);
        assert!(said.status == 65 && said.out.contains(&line) && said.error == sentence(1, 0), "{line} {said:?}");
        let mut ruined = disc.0.clone();
        ruined[at + 16] ^= 0x80;
        let said = written(&ruined).vault(&["check", "--maps", "a.img"]);
        let line = format!("{what} in {stands} has a wrong body: ");
        assert!(said.status == 65 && said.out.contains(&line) && said.error == sentence(0, 1), "{line} {said:?}");
    }
}
