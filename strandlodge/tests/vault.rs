//! Every call of `Counted` on the sample show, each refusal that a disc can give, and answers beyond what is lent at first.

mod common;

use common::{DELETED, SECTOR, TestDisc, continuation, continued, harm, identifier, marked, named, noise, reclosed, short_ad, show};
use strandlodge::{AllocExtent, Answer, Counted, Disc, How, Kind, Matching, Refusal, Refused, Show};
use strandlodge::{UNLIMITED, probe_vrs, read_volume_label, volume_descriptors};

const UPPER: &[u8] = b"cue 10.1A\nfront wash 80, blue backs 40, follow 6 seconds\n";
const LOWER: &[u8] = b"cue 10.1a\nfront wash 20, the look before the interval\n";

fn refused<T>(answer: strandlodge::Answered<T>) -> (Refusal, u64) {
    // The value may be of many bytes, and isn't printed.
    let Refused { why, sectors } = answer.map(|_| ()).expect_err("an answer");
    (why, sectors)
}

#[test]
fn every_call_on_the_show() {
    let image = show();
    let vault = Counted::open(&image).unwrap();
    assert_eq!(vault.sectors, 6);
    assert_eq!((vault.partition_start_sector(), vault.partition_number()), (288, 5));
    assert_eq!(vault.label().unwrap(), Answer { value: "SHOW 1".to_string(), sectors: 6 });
    assert_eq!(read_volume_label(&image).unwrap(), "SHOW 1");
    assert!(!probe_vrs(&image));

    let root = vault.read_directory(vault.root_directory_icb()).unwrap();
    assert_eq!((root.len(), root[0].name.as_str(), root[0].is_directory, root.sectors), (1, "SHOW", true, 1));
    let cues = vault.read_directory(root[0].icb).unwrap();
    let names: Vec<&str> = cues.iter().map(|cue| cue.name.as_str()).collect();
    assert_eq!(names, ["9", "10.1A", "10.1a", "11"]);
    assert!(cues.iter().all(|cue| !cue.is_directory));

    let icb = vault.lookup("SHOW/10.1A").unwrap();
    assert_eq!((icb.value, icb.sectors), (cues[1].icb, 2));
    assert_eq!((icb.location.block, icb.location.partition_ref, icb.length, icb.extent_type), (7, 5, 2048, 0));
    assert_eq!(icb.implementation_use, [1, 2, 3, 4, 5, 6]);
    assert_eq!(vault.read_file(icb).unwrap(), Answer { value: UPPER.to_vec(), sectors: 2 });
    assert_eq!(vault.read_path("SHOW/10.1A").unwrap(), Answer { value: UPPER.to_vec(), sectors: 4 });
    let extent = AllocExtent { length: 57, extent_type: 0, block: 8, partition_ref: None };
    assert_eq!(vault.extents(icb).unwrap(), Answer { value: vec![extent], sectors: 1 });
    assert_eq!(vault.part(icb).unwrap(), Answer { value: &[][..], sectors: 1 });
    assert_eq!(vault.failed("SHOW/10.1A").unwrap(), Answer { value: None, sectors: 2 });
}

#[test]
fn either_case_gives_the_first_and_an_icb_gives_its_own() {
    let image = show();
    let vault = Counted::open(&image).unwrap();
    for path in ["SHOW/10.1A", "SHOW/10.1a", "show//10.1A/", "/Show/10.1a"] {
        assert_eq!(vault.read_path(path).unwrap().value, UPPER, "{path}");
    }
    let cues = vault.read_directory(vault.lookup("SHOW").unwrap()).unwrap();
    assert_eq!(vault.read_file(cues[2].icb).unwrap().value, LOWER);
}

#[test]
fn paths_are_bytes() {
    let image = show();
    let vault = Counted::open(&image).unwrap();
    assert_eq!(vault.lookup("").unwrap(), Answer { value: vault.root_directory_icb(), sectors: 0 });
    assert_eq!(vault.lookup(b"SHOW/9").unwrap().value, vault.lookup("SHOW/9").unwrap().value);
    for (path, component) in
        [(&b"SHOW/12"[..], &b"12"[..]), (b"no/12", b"no"), (b"SHOW/9/x", b"x"), (b"SHOW/9\0", b"9\0"), (b"\xff", b"\xff")]
    {
        let (why, sectors) = refused(vault.lookup(path));
        assert_eq!(why, Refusal::NotBluray);
        assert_eq!(vault.failed(path).unwrap(), Answer { value: Some(component), sectors });
        assert_eq!(refused(vault.read_path(path)), (why, sectors));
    }
}

#[test]
fn refusals_of_opening() {
    let image = show();
    let cut = |sector: usize| &image[..sector * SECTOR];
    assert_eq!(refused(Counted::open(&[])), (Refusal::Io, 1));
    assert_eq!(refused(Counted::open(&image[..257 * SECTOR - 1])), (Refusal::Io, 1));
    assert_eq!(refused(Counted::open(cut(257))), (Refusal::Io, 6));
    assert_eq!(refused(Counted::label_of(cut(257), How::default())), (Refusal::Io, 6));
    assert_eq!(refused(Counted::open(&noise(300 * SECTOR))), (Refusal::Malformed, 1));
    let changed = |sector: usize, at: usize, byte: u8| {
        let mut image = image.clone();
        image[sector * SECTOR + at] = byte;
        image
    };
    // The partition descriptor under an id that is passed over; a block size of 4,096.
    assert_eq!(refused(Counted::open(&changed(33, 0, 0x77))).0, Refusal::NotBluray);
    assert_eq!(refused(Counted::open(&changed(34, 213, 16))).0, Refusal::Unsupported);
}

#[test]
fn the_highest_number_prevails_where_it_is_chosen() {
    let (image, how) = (reclosed(), How { highest: true, ..How::default() });
    assert_eq!(refused(Counted::open(&image)), (Refusal::Malformed, 7));
    assert_eq!(refused(Counted::label_of(&image, How::default())), (Refusal::Malformed, 7));
    let vault = Counted::open_as(&image, how).unwrap();
    assert_eq!((vault.sectors, vault.partition_start_sector(), vault.partition_number()), (7, 288, 5));
    let show = show();
    let shown = Counted::open(&show).unwrap();
    assert_eq!(vault.read_path("SHOW/10.1A").unwrap(), shown.read_path("SHOW/10.1A").unwrap());
    // The label call opens the image again, in the same way.
    assert_eq!(vault.label().unwrap(), Answer { value: "SHOW 1".to_string(), sectors: 7 });
    assert_eq!(Counted::label_of(&image, how), vault.label());
    // Where no number falls both choices are one.
    assert_eq!(format!("{:?}", Counted::open_as(&show, how)), format!("{:?}", Counted::open(&show)));
}

const CHECKED: How = How { highest: false, checked: true, maps: false };

#[test]
fn a_checked_vault_answers_as_an_unchecked_one() {
    let image = show();
    let (plain, checked) = (Counted::open(&image).unwrap(), Counted::open_as(&image, CHECKED).unwrap());
    assert_eq!((plain.how(), checked.how(), checked.sectors), (How::default(), CHECKED, plain.sectors));
    assert_eq!((checked.label(), Counted::label_of(&image, CHECKED)), (plain.label(), plain.label()));
    let icb = checked.lookup("SHOW/10.1A").unwrap();
    assert_eq!((icb, checked.failed("SHOW/12").unwrap().value), (plain.lookup("SHOW/10.1A").unwrap(), Some(&b"12"[..])));
    assert_eq!(checked.read_path("show/10.1a").unwrap().value, UPPER);
    assert_eq!(checked.read_path_as("SHOW/10.1a", Matching::AsWritten).unwrap().value, LOWER);
    assert_eq!(
        (checked.read_file(icb), checked.extents(icb), checked.part(icb)),
        (plain.read_file(icb), plain.extents(icb), plain.part(icb))
    );
    let show = checked.lookup("SHOW").unwrap();
    assert_eq!(checked.read_directory(show), plain.read_directory(show));
}

/// A wrong body refuses each call that parses its descriptor, and no other; the vault keeps to what it was opened with.
#[test]
fn a_wrong_body_is_refusal_10() {
    let flipped = |sector: usize| {
        let mut image = show();
        image[sector * SECTOR + 40] ^= 1;
        image
    };
    for (sector, count) in [(256, 1), (32, 2), (33, 3), (34, 4), (290, 6)] {
        let mut image = show();
        image[sector * SECTOR + 80] ^= 1;
        assert!(Counted::open(&image).is_ok());
        assert_eq!(refused(Counted::open_as(&image, CHECKED)), (Refusal::BadCrc, count));
        assert_eq!(refused(Counted::label_of(&image, CHECKED)), (Refusal::BadCrc, count));
    }
    // SHOW's entry, and that of cue 10.1A.
    let image = flipped(292);
    let (plain, checked) = (Counted::open(&image).unwrap(), Counted::open_as(&image, CHECKED).unwrap());
    let show = checked.lookup("SHOW").unwrap();
    assert_eq!(refused(checked.read_directory(show)), (Refusal::BadCrc, 1));
    assert_eq!(refused(checked.lookup("SHOW/9")), (Refusal::BadCrc, 2));
    assert_eq!(refused(checked.failed("SHOW/12")), (Refusal::BadCrc, 2));
    assert_eq!(plain.read_path("SHOW/10.1A").unwrap().value, UPPER);
    let image = flipped(295);
    let (plain, checked) = (Counted::open(&image).unwrap(), Counted::open_as(&image, CHECKED).unwrap());
    let icb = checked.lookup("SHOW/10.1A").unwrap();
    assert_eq!(refused(checked.read_file(icb)), (Refusal::BadCrc, 1));
    assert_eq!(refused(checked.read_path("SHOW/10.1A")), (Refusal::BadCrc, 3));
    assert_eq!((refused(checked.extents(icb)), refused(checked.part(icb))), ((Refusal::BadCrc, 1), (Refusal::BadCrc, 1)));
    assert_eq!((plain.read_file(icb).unwrap().value, checked.read_path("SHOW/9").is_ok()), (UPPER.to_vec(), true));
}

#[test]
fn descriptors_of_the_sequence() {
    let found = |image: &[u8], highest| {
        let all = volume_descriptors(image, How { highest, ..How::default() });
        all.into_iter().map(|one| (one.sector, one.kind, one.number, one.prevails)).collect::<Vec<_>>()
    };
    let all = |newer, older| {
        [
            (32, Kind::PrimaryVolume, 1, true),
            (33, Kind::Partition, 2, newer),
            (34, Kind::LogicalVolume, 3, true),
            (35, Kind::Partition, 1, older),
        ]
    };
    let image = reclosed();
    assert_eq!(found(&image, false), all(false, true));
    assert_eq!(found(&image, true), all(true, false));
    // Of equal numbers the later.
    let mut equal = image.clone();
    equal[35 * SECTOR + 16] = 2;
    assert_eq!(found(&equal, true)[3], (35, Kind::Partition, 2, true));
    // One that is refused: those before it, and none prevails. The file set descriptor's refusal is behind them all.
    let mut bad = image.clone();
    bad[34 * SECTOR + 4] ^= 1;
    assert_eq!(found(&bad, true), [(32, Kind::PrimaryVolume, 1, false), (33, Kind::Partition, 2, false)]);
    let mut bad = show();
    bad[290 * SECTOR + 4] ^= 1;
    assert_eq!(found(&bad, false), found(&show(), false));
    assert_eq!((found(&[], false), found(&noise(300 * SECTOR), true), found(&image[..32 * SECTOR], true)), (vec![], vec![], vec![]));
}

#[test]
fn refusals_of_files() {
    let mut disc = TestDisc::new();
    let unrecorded = disc.entry(0, &short_ad(10 | 1 << 30, 1), 10);
    let missing = disc.entry(0, &short_ad(10, 1 << 20), 10);
    let bad = disc.lay(&[1; 100]);
    let listing = disc.directory(&[named("unrecorded", unrecorded, false), named("missing", missing, false), named("bad", bad, true)]);
    disc.root(listing);
    let vault = Counted::open(&disc.0).unwrap();
    assert_eq!(refused(vault.read_path("unrecorded")), (Refusal::Unsupported, 3));
    assert_eq!(refused(vault.read_path("missing")), (Refusal::Io, 4));
    let bad = vault.lookup("bad").unwrap();
    assert_eq!(refused(vault.read_file(bad)), (Refusal::Malformed, 1));
    assert_eq!(refused(vault.read_directory(bad)), (Refusal::Malformed, 1));
    assert_eq!(refused(vault.extents(bad)), (Refusal::Malformed, 1));
    assert_eq!(refused(vault.part(bad)), (Refusal::Malformed, 1));
    assert_eq!(refused(vault.failed("bad/below")), (Refusal::Malformed, 3));
}

#[test]
fn an_embedded_file_is_a_part_of_the_image() {
    let mut disc = TestDisc::new();
    let block = disc.entry(3, b"in the entry, and behind it", 12);
    let listing = disc.directory(&[named("embedded", block, false)]);
    disc.root(listing);
    let vault = Counted::open(&disc.0).unwrap();
    let icb = vault.lookup("embedded").unwrap();
    let part = vault.part(icb).unwrap();
    assert_eq!((part.value, part.sectors), (&b"in the entry"[..], 1));
    assert!(disc.0.as_ptr_range().contains(&part.as_ptr()));
    assert_eq!(vault.extents(icb).unwrap().value, []);
    assert_eq!(vault.read_file(icb).unwrap().value, b"in the entry");
}

/// A disc with a directory of 20,000 entries (1.1 MB of identifiers), the last of them a file of 5 MB, and above it a directory of one.
fn wide_disc(bytes: &[u8]) -> TestDisc {
    let mut disc = TestDisc::new();
    let file = disc.file(bytes);
    let mut entries: Vec<Vec<u8>> = (0..20_000).map(|i| named(&format!("a longer name {i}"), 1, false)).collect();
    entries.push(named("last", file, false));
    let wide = disc.directory(&entries);
    let root = disc.directory(&[named("wide", wide, true)]);
    disc.root(root);
    disc
}

#[test]
fn room_grows_until_the_answer_fits() {
    let bytes = noise(5_000_000);
    let disc = wide_disc(&bytes);
    let vault = Counted::open(&disc.0).unwrap();
    let wide = vault.lookup("wide").unwrap();
    let entries = vault.read_directory(wide).unwrap();
    assert_eq!((entries.len(), entries[19_999].name.as_str()), (20_001, "a longer name 19999"));
    // The directory's entry and its sectors, once: the calls that had too little room aren't counted.
    let sectors = 1 + vault.extents(wide).unwrap()[0].length.div_ceil(SECTOR as u32) as u64;
    assert_eq!(entries.sectors, sectors);
    let last = vault.lookup("wide/LAST").unwrap();
    assert_eq!((last.value, last.sectors), (entries[20_000].icb, 2 + sectors));
    let of_file = 1 + bytes.len().div_ceil(SECTOR) as u64;
    let read = vault.read_file(last).unwrap();
    assert_eq!((read.sectors, read.capacity()), (of_file, bytes.len()));
    assert!(read.value == bytes);
    for matching in [Matching::CaseIgnored, Matching::AsWritten, Matching::Unambiguous] {
        let read = vault.read_path_as("wide/last", matching).unwrap();
        assert_eq!(read.sectors, 2 + sectors + of_file);
        assert!(read.value == bytes);
    }
    assert_eq!(vault.failed_as("wide/LAST", Matching::AsWritten).unwrap().value, Some(&b"LAST"[..]));
    assert_eq!(vault.failed("wide/none").unwrap().value, Some(&b"none"[..]));
}

#[test]
fn slots_grow_until_the_list_fits() {
    let mut disc = TestDisc::new();
    let block = disc.lay(&noise(100));
    let area = short_ad(100, block).repeat(120_000);
    let further = disc.lay(&continuation(&area));
    let many = disc.entry(0, &[&short_ad(1, block)[..], &continued(24 + area.len(), further)].concat(), u64::MAX);
    let listing = disc.directory(&[named("many", many, false)]);
    disc.root(listing);
    let vault = Counted::open(&disc.0).unwrap();
    let icb = vault.lookup("many").unwrap();
    let extents = vault.extents(icb).unwrap();
    assert_eq!((extents.len(), extents[0].length, extents[120_000].length), (120_001, 1, 100));
    // 12 MB in an image of less: what the extents hold is what is answered, whatever the information length says.
    let read = vault.read_file(icb).unwrap();
    assert!(disc.0.len() < 4 << 20);
    assert_eq!(read.len(), 12_000_001);
    assert!(read[1..].chunks(100).all(|cue| cue == noise(100)));
}

#[test]
fn names_grow_when_they_are_listed() {
    let mut disc = TestDisc::new();
    // 254 letters of two bytes each, in 255 recorded bytes.
    let recorded = [&[8][..], &[0xe9; 254]].concat();
    let entries: Vec<Vec<u8>> = (0..200).map(|_| identifier(&recorded, 1, false)).collect();
    assert!(entries.concat().len() < 64 << 10);
    let listing = disc.directory(&entries);
    disc.root(listing);
    let vault = Counted::open(&disc.0).unwrap();
    let entries = vault.read_directory(vault.root_directory_icb()).unwrap();
    assert!(entries.len() == 200 && entries.iter().all(|entry| entry.name == "é".repeat(254)));
}

#[test]
fn an_absurd_disc_is_refused_by_its_number() {
    let mut disc = TestDisc::new();
    let block = disc.lay(&vec![0; 1 << 20]);
    // 400 extents over the same MiB: no memory is taken by what a disc says of itself.
    let area = short_ad(1 << 20, block).repeat(400);
    let further = disc.lay(&continuation(&area));
    let absurd = disc.entry(0, &continued(24 + area.len(), further), 1 << 60);
    let empty = disc.entry(0, &short_ad(0, block), 1 << 60);
    let listing = disc.directory(&[named("file", absurd, false), named("empty", empty, false), named("absurd", absurd, true)]);
    disc.root(listing);
    let vault = Counted::open(&disc.0).unwrap();
    assert_eq!(refused(vault.read_path("file")).0, Refusal::NoRoom);
    assert_eq!(refused(vault.read_file(vault.lookup("file").unwrap())).0, Refusal::NoRoom);
    assert_eq!(vault.read_path("empty").unwrap().value, []);
    for matching in [Matching::CaseIgnored, Matching::AsWritten, Matching::Unambiguous] {
        assert_eq!(refused(vault.lookup_as("absurd/below", matching)).0, Refusal::NoWork);
    }
    assert_eq!(refused(vault.read_directory(vault.lookup("absurd").unwrap())).0, Refusal::NoWork);
}

#[test]
fn refusals_have_their_numbers_and_a_sentence_each() {
    use Refusal::*;
    let all = [Io, Malformed, NotBluray, Unsupported, NoRoom, NoWork, NoSlot, Ambiguous, BadCrc];
    assert_eq!(all.map(Refusal::number), [1, 2, 3, 4, 5, 6, 7, 9, 10]);
    let sentences: std::collections::HashSet<String> = all.iter().map(|why| why.to_string()).collect();
    assert_eq!(sentences.len(), all.len());
    let refused = Refused { why: Io, sectors: 1 };
    assert_eq!((refused.to_string(), refused.number()), (Io.to_string(), 1));
    assert_eq!(Refusal::from(refused), Io);
}

#[test]
fn a_vault_may_be_shared_between_threads() {
    let image = show();
    let vault = Counted::open(&image).unwrap().value;
    let cues = ["SHOW/9", "SHOW/10.1A", "SHOW/11"];
    std::thread::scope(|scope| {
        let reads = cues.map(|path| scope.spawn(move || vault.read_path(path).unwrap().value));
        for (read, path) in reads.into_iter().zip(cues) {
            assert_eq!(read.join().unwrap(), vault.read_path(path).unwrap().value);
        }
    });
}

/// Where a console hands an answer on it may stand for its value.
#[test]
fn an_answer_stands_for_its_value() {
    let image = show();
    let vault = Counted::open(&image).unwrap();
    let bytes = |taken: &dyn AsRef<[u8]>| taken.as_ref().to_vec();
    assert_eq!(bytes(&vault.read_path("SHOW/10.1A").unwrap()), UPPER);
    assert_eq!(format!("{}", vault.label().unwrap()), "SHOW 1");
    let show = vault.lookup("SHOW").unwrap();
    let names: Vec<String> = vault.read_directory(show).unwrap().into_iter().map(|cue| cue.name).collect();
    assert_eq!(names.join(" "), "9 10.1A 10.1a 11");
    let mut cues = vault.read_directory(show).unwrap();
    cues.reverse();
    assert_eq!((cues[0].name.as_str(), show.map(|icb| icb.location.block).value), ("11", 4));
}

/// What each path of a list gives, in its order; a list is counted as its paths are.
#[test]
fn many_paths_in_one_call() {
    let image = show();
    let vault = Counted::open(&image).unwrap();
    let paths = ["SHOW/10.1a", "SHOW/12", "show/11", "", "SHOW/9\0", "SHOW", "SHOW/10.1A"];
    for matching in [Matching::CaseIgnored, Matching::AsWritten, Matching::Unambiguous] {
        let all = vault.read_all_as(&paths, matching).unwrap();
        let alone = paths.map(|path| vault.read_path_as(path, matching));
        let sectors = alone.iter().map(|one| one.as_ref().map_or_else(|refused| refused.sectors, |one| one.sectors));
        assert_eq!(all.sectors, sectors.sum::<u64>());
        assert_eq!(all.value, alone.map(|one| one.map(|one| one.value).map_err(Refusal::from)));
    }
    let all = vault.read_all(&paths).unwrap();
    assert_eq!((all[0].as_deref(), all[6].as_deref()), (Ok(UPPER), Ok(UPPER)));
    // A zero byte is in no name, and cuts no path in two.
    assert_eq!((all.len(), all[1].clone(), all[4].clone()), (7, Err(Refusal::NotBluray), Err(Refusal::NotBluray)));
    let all = vault.read_all_as(&["SHOW/10.1a", "SHOW/9"], Matching::Unambiguous).unwrap();
    assert_eq!((&all[0], all[1].is_ok()), (&Err(Refusal::Ambiguous), true));
}

/// No paths are no list, and an empty path is the root's own bytes.
#[test]
fn lists_of_nothing() {
    let image = show();
    let vault = Counted::open(&image).unwrap();
    assert_eq!(vault.read_all(&[] as &[&str]).unwrap(), Answer { value: Vec::new(), sectors: 0 });
    let root = vault.read_file(vault.root_directory_icb()).unwrap();
    assert_eq!(vault.read_all(&[""]).unwrap(), Answer { value: vec![Ok(root.value.clone())], sectors: root.sectors });
    assert_eq!(vault.read_all(&["", ""]).unwrap().value, [Ok(root.value.clone()), Ok(root.value)]);
    assert_eq!(vault.read_all(&["\0"]).unwrap(), Answer { value: vec![Err(Refusal::NotBluray)], sectors: 1 });
}

/// More than is lent at first: files that don't fit what is left, a directory that doesn't fit the work space, and more paths than one call takes.
#[test]
fn lists_of_much() {
    let (mut disc, sizes) = (TestDisc::new(), [0, 4096, 300_000, 65_536, 1, 2_000_000]);
    let files = sizes.map(|n| disc.file(&noise(n)));
    let entries: Vec<Vec<u8>> = (0..5000).map(|i| named(&format!("cue {i:05}"), files[i % 6], false)).collect();
    let listing = disc.directory(&entries);
    disc.root(listing);
    let vault = Counted::open(&disc.0).unwrap();
    let of = |i: usize| (format!("CUE {i:05}"), sizes[i % 6]);
    for (step, n) in [(1, 40), (6, 40), (37, 1), (1, 1024 + 3)] {
        let wanted: Vec<(String, usize)> = (0..n).map(|i| of(4999 - i * step)).collect();
        let paths: Vec<&str> = wanted.iter().map(|(path, _)| path.as_str()).collect();
        // The large ones would take 400 MB.
        let paths =
            if n > 1000 { paths.iter().copied().filter(|path| vault.read_path(path).unwrap().len() < 5000).collect() } else { paths };
        let all = vault.read_all(&paths).unwrap();
        assert_eq!(all.len(), paths.len());
        let mut sectors = 0;
        for (path, item) in paths.iter().zip(&all.value) {
            let alone = vault.read_path(path).unwrap();
            sectors += alone.sectors;
            assert!(item.as_ref() == Ok(&alone.value), "{path}");
        }
        assert_eq!(all.sectors, sectors);
    }
    let many = vec!["cue 00004"; 3000];
    assert!(vault.read_all(&many).unwrap().iter().all(|item| item.as_ref().map(Vec::len) == Ok(1)));
}

/// A wrong body refuses the paths that come to its descriptor, and no other.
#[test]
fn a_list_goes_on_past_a_wrong_body() {
    let mut image = show();
    image[293 * SECTOR + 40] ^= 1;
    let vault = Counted::open_as(&image, CHECKED).unwrap();
    let all = vault.read_all(&["SHOW/9", "SHOW/10.1A", "SHOW/9"]).unwrap();
    assert_eq!(all.value, [Err(Refusal::BadCrc), Ok(UPPER.to_vec()), Err(Refusal::BadCrc)]);
}

fn paths(show: Show) -> Vec<(u8, String)> {
    show.map(|one| (one.level, one.path)).collect()
}

#[test]
fn a_whole_show() {
    let image = show();
    let vault = Counted::open(&image).unwrap();
    let shown = vault.show(2, UNLIMITED).unwrap();
    assert_eq!(shown.sectors, 2);
    let wanted = [(1, "SHOW"), (2, "SHOW/9"), (2, "SHOW/10.1A"), (2, "SHOW/10.1a"), (2, "SHOW/11")];
    assert_eq!(paths(shown.value.clone()), wanted.map(|(level, path)| (level, path.to_string())));
    for one in shown.value {
        assert_eq!(one.entry.icb, vault.lookup_as(&one.path, Matching::AsWritten).unwrap().value);
        assert_eq!(one.entry.is_directory, one.path == "SHOW");
    }
    // More levels than there are change nothing; fewer are refused at the directory, and any other number at once.
    assert_eq!(paths(vault.show(16, UNLIMITED).unwrap().value), paths(vault.show(2, UNLIMITED).unwrap().value));
    assert_eq!(refused(vault.show(1, UNLIMITED)), (Refusal::TooDeep, 1));
    for levels in [0, 17, 257, u32::MAX] {
        assert_eq!(refused(vault.show(levels, UNLIMITED)), (Refusal::TooDeep, 0));
    }
}

/// Lent as many sectors as its list has, a show is the one without a budget; lent fewer it is 16, and asked for as many as it was lent.
#[test]
fn a_show_within_its_budget() {
    let image = show();
    let vault = Counted::open(&image).unwrap();
    let whole = vault.show(16, UNLIMITED).unwrap();
    assert_eq!(whole.sectors, 2);
    let all = paths(whole.value);
    for most in [2, 3, UNLIMITED - 1] {
        let shown = vault.show(16, most).unwrap();
        assert_eq!((shown.sectors, paths(shown.value)), (2, all.clone()));
    }
    for most in [0, 1] {
        assert_eq!(refused(vault.show(16, most)), (Refusal::OverBudget, most));
        assert_eq!(refused(vault.show(17, most)), (Refusal::TooDeep, 0));
    }
    // The directory at the last level is found before it is asked for, and so is 11 before 16.
    assert_eq!((refused(vault.show(1, 1)), refused(vault.show(1, 0))), ((Refusal::TooDeep, 1), (Refusal::OverBudget, 0)));
}

/// Directories with more paths than could ever be listed.
#[test]
fn a_show_of_a_disc_that_was_made_to_do_harm() {
    let disc = harm(14).0;
    let vault = Counted::open(&disc).unwrap();
    for most in [0, 12, 13, 1_000, 100_000] {
        assert_eq!(refused(vault.show(16, most)), (Refusal::OverBudget, most));
    }
    // The root is the first of 14 directories: at 13 levels the last of them stands at the last.
    for most in [13, 14, 1_000, UNLIMITED] {
        assert_eq!(refused(vault.show(13, most)), (Refusal::TooDeep, 13));
    }
    assert_eq!(refused(vault.show(13, 12)), (Refusal::OverBudget, 12));
    let small = harm(3).0;
    let vault = Counted::open(&small).unwrap();
    assert_eq!(vault.show(3, 421).unwrap().value.count(), 8_420);
    assert_eq!(refused(vault.show(3, 420)), (Refusal::OverBudget, 420));
}

/// More than is lent at first: records of more than 64 KiB, and directories that together have more.
#[test]
fn a_large_show() {
    let mut disc = TestDisc::new();
    let cue = disc.file(b"a look");
    let named_so = |n: usize, name: &str| (0..n).map(|i| named(&format!("{name} {i:04}"), cue, false)).collect::<Vec<_>>();
    let mut below = disc.directory(&named_so(900, "a cue of the innermost directory"));
    for _ in 0..3 {
        let mut entries = named_so(300, "another cue");
        entries.push(named("down", below, true));
        below = disc.directory(&entries);
    }
    disc.root(below);
    let vault = Counted::open(&disc.0).unwrap();
    let shown = paths(vault.show(4, UNLIMITED).unwrap().value);
    assert_eq!(shown.len(), 3 * 301 + 900);
    assert_eq!(shown[300], (1, "down".to_string()));
    assert_eq!(shown.last().unwrap(), &(4, "down/down/down/a cue of the innermost directory 0899".to_string()));
    assert_eq!(refused(vault.show(3, UNLIMITED)).0, Refusal::TooDeep);
}

/// A directory that holds itself is found at the last level.
#[test]
fn a_show_of_a_directory_that_holds_itself() {
    let mut disc = TestDisc::new();
    let root = disc.directory(&[named("again", 3, true), named("cue", 5, false)]);
    disc.root(root);
    let vault = Counted::open(&disc.0).unwrap();
    // Two sectors for each level: its entry and its bytes.
    for levels in [1, 2, 16] {
        assert_eq!(refused(vault.show(levels, UNLIMITED)), (Refusal::TooDeep, 2 * u64::from(levels)));
    }
}

/// Names of each length, of letters that take two bytes of UTF-8, alone and many, and the last one without the bytes that round it up: what is lent for
/// their listing is enough.
#[test]
fn a_listing_has_room_at_once() {
    for n in [0, 1, 2, 100, 250, 253, 254, 255] {
        let recorded: Vec<u8> = [8].into_iter().chain(std::iter::repeat(0xe9)).take(n).collect();
        let mut disc = TestDisc::new();
        let mut bytes = identifier(&recorded, 5, false).repeat(1000);
        bytes.truncate(bytes.len() - ((38 + n).next_multiple_of(4) - (38 + n)));
        let root = disc.file(&bytes);
        disc.root(root);
        let vault = Disc::open(&disc.0).unwrap();
        let entries = vault.read_directory(vault.root_directory_icb()).unwrap();
        assert_eq!((entries.len(), entries[999].name.len()), (1000, 2 * n.saturating_sub(1)), "{n}");
    }
}

/// A directory of more than 256 MiB, by extents that overlap: it is refused by 6 before anything is lent, with the count of its sectors.
#[test]
fn a_directory_that_is_too_large_is_refused_at_once() {
    let mut disc = TestDisc::new();
    let bytes = marked(named("deleted", 5, false), DELETED).repeat((16 << 20) / 48);
    let (size, block) = (bytes.len(), disc.lay(&bytes));
    let root = disc.entry(0, &short_ad(size, block).repeat(17), 17 * size as u64);
    disc.root(root);
    let vault = Disc::open(&disc.0).unwrap();
    let (root, sectors) = (vault.root_directory_icb(), 1 + 17 * size.div_ceil(SECTOR) as u64);
    assert_eq!(vault.read_directory(root).unwrap_err().refused(), Refused { why: Refusal::NoWork, sectors });
    assert_eq!(vault.measure(root), Ok(17 * size as u64));
}
