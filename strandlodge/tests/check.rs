//! `vault check`: discs with every descriptor in place and with a right body, with one location or one body planted wrong for each kind of
//! descriptor, with what can't be read, and with directories that hold each other.

mod common;

use common::command::{Folder, Said};
use common::{SECTOR, TestDisc, continuation, continued, crc, mend, named, reclosed, seal, sealed, short_ad, show};
use std::ops::Range;

/// The sample show's partition, and its root.
const START: usize = 288;
const ROOT: u32 = 3;

fn check(image: &[u8]) -> Said {
    let folder = Folder::new();
    folder.write("a.img", image);
    let said = folder.vault(&["check", "a.img"]);
    assert_eq!(said.out, folder.vault(&["check", "--copy", "a.img"]).out);
    said
}

/// Writes a location into the tag that stands at `at`, with its checksum.
fn locate(image: &mut [u8], at: usize, location: u32) {
    image[at + 12..at + 16].copy_from_slice(&location.to_le_bytes());
    mend(&mut image[at..]);
}

/// Where the first byte of a block stands.
fn at(block: u32) -> usize {
    (START + block as usize) * SECTOR
}

/// A sector's bytes.
fn sector(number: usize) -> Range<usize> {
    number * SECTOR..(number + 1) * SECTOR
}

/// A descriptor of a disc: where in the image the bytes stand that are at hand from its tag on, its location, and what a line says of it and
/// of its place.
struct Located {
    hand: Vec<usize>,
    right: u32,
    of: String,
    stands: String,
}

impl Located {
    fn in_block(hand: impl IntoIterator<Item = usize>, of: &str) -> Located {
        let hand: Vec<usize> = hand.into_iter().collect();
        let sector = hand[0] / SECTOR;
        Located { right: (sector - START) as u32, of: of.to_string(), stands: format!("block {} (sector {sector})", sector - START), hand }
    }

    fn in_sector(number: usize, of: &str) -> Located {
        Located { hand: sector(number).collect(), right: number as u32, of: of.to_string(), stands: format!("sector {number}") }
    }

    /// What can be looked at from the tag on.
    fn whole(&self, image: &[u8]) -> Vec<u8> {
        self.hand.iter().map(|at| image[*at]).collect()
    }

    /// The image with the tag changed, and its checksum mended.
    fn tagged(&self, image: &[u8], change: impl FnOnce(&mut [u8])) -> Vec<u8> {
        let (mut image, mut whole) = (image.to_vec(), self.whole(image));
        change(&mut whole);
        mend(&mut whole);
        self.hand[..16].iter().zip(whole).for_each(|(at, byte)| image[*at] = byte);
        image
    }

    /// The image with a location in the tag.
    fn located(&self, image: &[u8], location: u32) -> Vec<u8> {
        self.tagged(image, |tag| tag[12..16].copy_from_slice(&location.to_le_bytes()))
    }

    /// The image with a bit of the body flipped, where nothing stands that is read.
    fn flipped(&self, image: &[u8]) -> Vec<u8> {
        let within = if self.of.contains("(id 257)") || self.of.contains("(id 258)") { 16 } else { 40 };
        let mut image = image.to_vec();
        image[self.hand[within]] ^= 0x20;
        image
    }

    fn misplaced(&self, says: u32) -> String {
        format!("{} says {says}, stands in {}\n", self.of, self.stands)
    }

    fn ruined(&self, what: &str) -> String {
        format!("{} in {} has a wrong body: {what}\n", self.of, self.stands)
    }

    /// The same of a body that is there.
    fn ruined_in(&self, image: &[u8]) -> String {
        let whole = self.whole(image);
        let number = |at| u16::from_le_bytes([whole[at], whole[at + 1]]);
        let (says, length) = (number(8), number(10));
        let has = crc(&whole[16..16 + usize::from(length)]);
        self.ruined(&format!("its tag has the CRC {says:04x}, and its {length} bytes have {has:04x}"))
    }
}

/// The sentence that a check ends with.
fn sentence(descriptors: usize, misplaced: usize, ruined: usize, unread: usize) -> String {
    let wrong = format!("not in place: {misplaced}, with a wrong body: {ruined}; places that can't be read: {unread}");
    format!("vault: a.img: descriptors: {descriptors}, {wrong}\n")
}

/// What is printed where all is well.
fn all_right(descriptors: usize) -> String {
    format!("{descriptors} descriptors, each in place and with a right body\n")
}

/// The blocks of a disc: an entry with a continuation, its header, an embedded directory, and the extents of the root.
struct Laid {
    chained: u32,
    header: u32,
    folder: u32,
    extents: Vec<u32>,
}

/// How many bytes of the root its three extents have. Its identifiers have 40 each: `a`, `b`, `f` so many times, `c` and `d`.
const LENGTHS: [usize; 3] = [44, 36 + FILLERS * 40 + 40, 40];
const FILLERS: usize = 52;

/// The sample show with another root, whose bytes stand in three extents that end inside blocks. Of its identifiers `b` begins in one
/// extent, with four bytes of its tag, and goes on in the next; `c` begins in the second block of an extent, and `d` at the front of one.
fn laid() -> (TestDisc, Laid) {
    let mut disc = TestDisc::new();
    let data = disc.lay(&[7; 16]);
    let area = continuation(&short_ad(16, data));
    let header = disc.lay(&area);
    let chained = disc.entry(0, &[short_ad(16, data), continued(area.len(), header)].concat(), 32);
    let embedded = [named("in", chained, false), named("out", chained, false)].concat();
    let folder = disc.entry(3, &embedded, embedded.len() as u64);
    let mut bytes = [named("a", chained, false), named("b", folder, true)].concat();
    bytes.extend(named("f", chained, false).repeat(FILLERS));
    bytes.extend([named("c", chained, false), named("d", chained, false)].concat());
    let (mut ads, mut rest, mut extents) = (Vec::new(), &bytes[..], Vec::new());
    for length in LENGTHS {
        let (front, behind) = rest.split_at(length);
        extents.push(disc.lay(front));
        ads.extend(short_ad(length, extents[extents.len() - 1]));
        rest = behind;
    }
    let root = disc.entry(0, &ads, bytes.len() as u64);
    disc.root(root);
    (disc, Laid { chained, header, folder, extents })
}

/// The identifiers of the root: the bytes at hand are the directory's, from one extent to the next.
fn identifiers(extents: &[u32]) -> Vec<Located> {
    let data: Vec<usize> = extents.iter().zip(LENGTHS).flat_map(|(block, length)| at(*block)..at(*block) + length).collect();
    let names = ["a", "b"].into_iter().chain(std::iter::repeat_n("f", FILLERS)).chain(["c", "d"]);
    names.enumerate().map(|(i, name)| Located::in_block(data[i * 40..].to_vec(), &format!("/{name}: file identifier (id 257)"))).collect()
}

/// The disc with every location right, and its descriptors, those of the volume first.
fn disc() -> (Vec<u8>, Vec<Located>) {
    let (disc, Laid { chained, header, folder, extents }) = laid();
    let entry = |block: u32, of: &str| Located::in_block(sector(START + block as usize), of);
    let embedded = at(folder) + 176..at(folder) + 176 + 88;
    let mut all = vec![
        Located::in_sector(256, "the volume: anchor (id 2)"),
        Located::in_sector(32, "the volume: primary volume descriptor (id 1)"),
        Located::in_sector(33, "the volume: partition descriptor (id 5)"),
        Located::in_sector(34, "the volume: logical volume descriptor (id 6)"),
        Located::in_sector(35, "the volume: terminating descriptor (id 8)"),
        entry(2, "the volume: file set descriptor (id 256)"),
        entry(ROOT, "/: file entry (id 261)"),
        entry(chained, "/a: file entry (id 261)"),
        entry(header, "/a: allocation extent descriptor (id 258)"),
        entry(folder, "/b: file entry (id 261)"),
        Located::in_block(embedded.clone(), "/b/in: file identifier (id 257)"),
        Located::in_block(embedded.skip(44), "/b/out: file identifier (id 257)"),
    ];
    all.extend(identifiers(&extents));
    let image = all.iter().fold(disc.0, |image, one| one.located(&image, one.right));
    (image, all)
}

/// One of each kind: of the many that are alike the first.
fn kinds(all: &[Located]) -> impl Iterator<Item = &Located> {
    let alike = |one: &&Located| one.of.starts_with("/f:");
    all.iter().filter(move |one| !alike(one)).chain(all.iter().filter(alike).take(1))
}

#[test]
fn the_sample_show_is_in_place() {
    let said = check(&show());
    assert_eq!((said.status, said.out, said.error.as_str()), (0, all_right(19), ""));
}

#[test]
fn a_disc_of_all_kinds_is_in_place() {
    let (image, all) = disc();
    let said = check(&image);
    assert_eq!((said.status, said.out, said.error.as_str()), (0, all_right(all.len()), ""));
}

/// One location at a time, of every kind: a number beside the right one, the sector in a block's stead, and the other way round.
#[test]
fn one_wrong_location_is_one_line() {
    let (image, all) = disc();
    for one in kinds(&all) {
        for wrong in [one.right + 1, one.right + START as u32, one.right ^ 0x10000] {
            let said = check(&one.located(&image, wrong));
            assert_eq!((said.status, said.out), (65, one.misplaced(wrong)), "{}", one.of);
            assert_eq!(said.error, sentence(all.len(), 1, 0, 0));
        }
    }
}

/// One bit at a time, of the body of every kind; and a CRC that is another.
#[test]
fn one_wrong_body_is_one_line() {
    let (image, all) = disc();
    for one in kinds(&all) {
        for planted in [one.flipped(&image), one.tagged(&image, |tag| tag[9] ^= 1)] {
            let said = check(&planted);
            assert_eq!((said.status, said.out), (65, one.ruined_in(&planted)), "{}", one.of);
            assert_eq!(said.error, sentence(all.len(), 0, 1, 0));
        }
    }
}

/// A CRC of every byte that is at hand, and one that is said to be of a byte more; a CRC of no byte, which is 0, and another.
#[test]
fn a_crc_is_of_the_bytes_at_hand() {
    let (image, all) = disc();
    for one in kinds(&all) {
        let most = one.hand.len() - 16;
        for length in [most, 0] {
            let said = check(&one.tagged(&image, |whole| seal(whole, length)));
            assert_eq!((said.status, said.out), (0, all_right(all.len())), "{} {length}", one.of);
        }
        let beyond = |tag: &mut [u8]| tag[10..12].copy_from_slice(&(most as u16 + 1).to_le_bytes());
        let said = check(&one.tagged(&image, beyond));
        let what = format!("its tag has the CRC of {} bytes, and {most} are there", most + 1);
        assert_eq!((said.status, said.out), (65, one.ruined(&what)), "{}", one.of);
        let said = check(&one.tagged(&image, |tag| tag[8..12].copy_from_slice(&[1, 0, 0, 0])));
        assert_eq!((said.status, said.out), (65, one.ruined("its tag has the CRC 0001, and its 0 bytes have 0000")), "{}", one.of);
    }
}

/// All at once, in the order of the walk: for each a line of its place, and behind it one of its body.
#[test]
fn every_wrong_descriptor_has_its_lines() {
    let (image, all) = disc();
    let image = all.iter().fold(image, |image, one| one.located(&one.flipped(&image), 77_777));
    let said = check(&image);
    let mut lines: Vec<&str> = said.out.split_inclusive('\n').collect();
    let mut expected: Vec<String> = all.iter().flat_map(|one| [one.misplaced(77_777), one.ruined_in(&image)]).collect();
    assert_eq!(lines[..12], expected[..12]);
    lines.sort();
    expected.sort();
    assert_eq!((said.status, lines), (65, expected.iter().map(String::as_str).collect()));
    assert_eq!(said.error, sentence(all.len(), all.len(), all.len(), 0));
}

/// With --checked what stands behind a wrong body isn't read either.
#[test]
fn a_check_may_stop_at_a_wrong_body() {
    let (image, all) = disc();
    let one = all.iter().find(|one| one.of.starts_with("/b: file entry")).unwrap();
    let planted = one.flipped(&image);
    let folder = Folder::new();
    folder.write("a.img", &planted);
    let said = folder.vault(&["check", "--checked", "a.img"]);
    let unread = "/b: can't be read: a descriptor fails its CRC check: the disc is scratched, or was written that way (refusal 10); \
                  the last sector asked for was 307, for a file entry: it has tag 261 (file entry)\n";
    assert_eq!((said.status, said.out), (65, one.ruined_in(&planted) + unread));
    assert_eq!(said.error, sentence(all.len() - 2, 0, 1, 1));
    folder.write("a.img", &all[0].flipped(&image));
    let said = folder.vault(&["check", "--checked", "a.img"]);
    assert_eq!((said.status, said.out), (10, all[0].ruined_in(&all[0].flipped(&image))));
}

/// A descriptor that goes by its block, and stands among those of the volume: in no partition, whatever its location is.
#[test]
fn a_block_outside_the_partition_is_none() {
    for location in [0, 1, 35] {
        let mut image = show();
        image.copy_within(35 * SECTOR..36 * SECTOR, 36 * SECTOR);
        image[35 * SECTOR..35 * SECTOR + 2].copy_from_slice(&259u16.to_le_bytes());
        locate(&mut image, 35 * SECTOR, location);
        locate(&mut image, 36 * SECTOR, 36);
        let said = check(&image);
        assert_eq!((said.status, said.out), (65, format!("the volume: indirect entry (id 259) says {location}, stands in sector 35\n")));
    }
}

/// What can't be read is said, and the rest is checked all the same.
#[test]
fn what_cannot_be_read_is_said() {
    let malformed = "can't be read: a descriptor, name or length is invalid: the disc is damaged, or is not UDF (refusal 2)";
    // The entry of cue 9, in block 5: its tag's checksum.
    let mut image = show();
    image[at(5) + 4] ^= 1;
    let said = check(&image);
    let untagged = "the last sector asked for was 293, for a file entry: it has no tag";
    assert_eq!((said.status, said.out), (67, format!("/SHOW/9: {malformed}; {untagged}\n")));
    assert_eq!(said.error, sentence(18, 0, 0, 1));
    // And beside it a wrong location, of cue 11's entry.
    locate(&mut image, at(11), 12);
    let said = check(&image);
    let misplaced = "/SHOW/11: file entry (id 261) says 12, stands in block 11 (sector 299)\n";
    assert_eq!((said.status, said.out), (65, format!("/SHOW/9: {malformed}; {untagged}\n{misplaced}")));
    // The last identifier of SHOW, whose directory is then refused behind it; its cue isn't come to.
    let mut image = show();
    let last = image[at(4)..at(5)].windows(2).rposition(|two| two == 257u16.to_le_bytes()).unwrap();
    image[at(4) + last + 4] ^= 1;
    // The CRC of SHOW's entry is of what is embedded in it too.
    let length = usize::from(u16::from_le_bytes([image[at(4) + 10], image[at(4) + 11]]));
    seal(&mut image[at(4)..], length);
    let said = check(&image);
    let place = "the last sector asked for was 292, for a file entry: it has tag 261 (file entry)";
    assert_eq!((said.status, said.out), (67, format!("/SHOW, from byte {} on: {malformed}; {place}\n", last - 176)));
    // An ICB outside the image, and one of length 0.
    let mut disc = TestDisc::new();
    let mut none = named("not", 0, false);
    none[20..24].fill(0);
    let folder = disc.entry(3, &[named("far", 99_999, false), sealed(none)].concat(), 88);
    disc.root(folder);
    for (at, location) in [(at(ROOT), ROOT), (at(ROOT) + 176, ROOT), (at(ROOT) + 176 + 44, ROOT)] {
        locate(&mut disc.0, at, location);
    }
    let said = check(&disc.0);
    assert!(said.status == 67 && said.out.starts_with("/far: can't be read: a sector is missing"), "{said:?}");
    assert_eq!(said.out.lines().nth(1), Some("/not: can't be read: its ICB has length 0 and names nothing (refusal 2)"));
}

/// A descriptor of type 3, of this kind: 0 short_ad, 1 long_ad, 2 ext_ad.
fn continued_by(kind: u8, length: u32, block: u32, partition: u16) -> Vec<u8> {
    let raw = (length | 3 << 30).to_le_bytes();
    let lengths = length.to_le_bytes().repeat(2);
    let place = [&block.to_le_bytes()[..], &partition.to_le_bytes()].concat();
    match kind {
        0 => continued(length as usize, block).to_vec(),
        1 => [&raw[..], &place, &[0; 6]].concat(),
        _ => [&raw[..], &lengths, &place, &[0; 2]].concat(),
    }
}

/// The header of a continuation that a descriptor of each kind names; one of another partition is refused by 4.
#[test]
fn continuations_of_every_kind_are_checked() {
    for (kind, partition) in [(0, 0), (1, 5), (2, 5), (1, 6), (2, 6)] {
        let mut disc = TestDisc::new();
        let header = disc.lay(&continuation(&[]));
        let file = disc.entry(kind, &continued_by(kind, 24, header, partition), 0);
        let root = disc.entry(3, &named("file", file, false), 44);
        disc.root(root);
        for (at, location) in [(at(ROOT), ROOT), (at(ROOT) + 176, ROOT), (at(file), file), (at(header), 1)] {
            locate(&mut disc.0, at, location);
        }
        let said = check(&disc.0);
        if partition == 6 {
            let why = "/file: can't be read: partition reference 6 is not the number of the volume's partition, which is 5 (refusal 4); ";
            assert!(said.status == 67 && said.out.starts_with(why) && said.out.lines().count() == 1, "{kind} {said:?}");
            continue;
        }
        let stands = format!("block {header} (sector {})", START as u32 + header);
        let line = format!("/file: allocation extent descriptor (id 258) says 1, stands in {stands}\n");
        assert_eq!((said.status, said.out), (65, line), "{kind}");
    }
}

/// A chain that goes on to itself is refused at its 33rd continuation, and has one header all the same.
#[test]
fn a_chain_that_cannot_be_followed_is_said() {
    let mut disc = TestDisc::new();
    let header = disc.lay(&continuation(&continued(32, 0)));
    let own = continued(32, header);
    let from = at(header) + 24;
    disc.0[from..from + 8].copy_from_slice(&own);
    seal(&mut disc.0[at(header)..], 16);
    let file = disc.entry(0, &own, 32);
    let folder = disc.entry(3, &named("round", file, false), 44);
    disc.root(folder);
    for (at, location) in [(at(ROOT), ROOT), (at(ROOT) + 176, ROOT), (at(file), file), (at(header), header)] {
        locate(&mut disc.0, at, location);
    }
    let said = check(&disc.0);
    assert!(said.status == 67 && said.out.starts_with("/round: can't be read: a descriptor") && said.out.lines().count() == 1, "{said:?}");
    // The header is one descriptor, however often the chain comes back to it.
    locate(&mut disc.0, at(header), header + 1);
    let said = check(&disc.0);
    let line = format!(
        "/round: allocation extent descriptor (id 258) says {}, stands in block {header} (sector {})",
        header + 1,
        START as u32 + header
    );
    assert_eq!((said.status, said.out.lines().filter(|one| *one == line).count()), (65, 1), "{said:?}");
}

/// Directories that hold each other and themselves, by names that are walked once; and one block that is a file's and a directory's.
#[test]
fn directories_that_hold_each_other_end() {
    let mut disc = TestDisc::new();
    let first = disc.0.len() / SECTOR - START;
    let (one, two) = (first as u32, first as u32 + 1);
    let of_one = [named("self", one, true), named("two", two, true), named("root", ROOT, true), named("file", two, false)].concat();
    let of_two = [named("one", one, true), named("two", two, true)].concat();
    assert_eq!(disc.entry(3, &of_one, of_one.len() as u64), one);
    assert_eq!(disc.entry(3, &of_two, of_two.len() as u64), two);
    let root = disc.entry(3, &named("one", one, true), 44);
    disc.root(root);
    let mut places = vec![(at(ROOT), ROOT), (at(ROOT) + 176, ROOT), (at(one), one), (at(two), two)];
    places.extend([0, 44, 88, 132].map(|inside| (at(one) + 176 + inside, one)));
    places.extend([0, 44].map(|inside| (at(two) + 176 + inside, two)));
    for (at, location) in &places {
        locate(&mut disc.0, *at, *location);
    }
    let said = check(&disc.0);
    assert_eq!((said.status, said.out), (0, all_right(6 + places.len())));
    // The entry of `two` is one descriptor.
    locate(&mut disc.0, at(two), 5);
    let said = check(&disc.0);
    let line = format!("/one/two: file entry (id 261) says 5, stands in block {two} (sector {})\n", START as u32 + two);
    assert_eq!((said.status, said.out), (65, line));
}

/// A thousand directories, each in the one before: the front of a long path is left out.
#[test]
fn a_deep_disc_is_walked_to_its_end() {
    let mut disc = TestDisc::new();
    let first = (disc.0.len() / SECTOR - START) as u32;
    for i in 0..1000 {
        let block = disc.entry(3, &named("d", first + i + 1, true), 40);
        locate(&mut disc.0, at(block), block);
        locate(&mut disc.0, at(block) + 176, block);
    }
    let last = disc.entry(3, b"", 0);
    disc.root(first);
    locate(&mut disc.0, at(ROOT), ROOT);
    locate(&mut disc.0, at(ROOT) + 176, ROOT);
    let said = check(&disc.0);
    let line = format!(".../{}d: file entry (id 261) says 0, stands in block {last} (sector {})\n", "d/".repeat(63), START as u32 + last);
    assert_eq!((said.status, said.out), (65, line));
}

/// A disc that can't be opened is refused, behind what was found before.
#[test]
fn a_disc_that_cannot_be_opened_is_refused() {
    let mut image = show();
    locate(&mut image, 32 * SECTOR, 33);
    image[at(2) + 4] ^= 1;
    let said = check(&image);
    assert_eq!((said.status, said.out.as_str()), (2, "the volume: primary volume descriptor (id 1) says 33, stands in sector 32\n"));
    assert_eq!(check(&[]).status, 1);
    assert_eq!(check(&image[..256 * SECTOR]).status, 1);
}

#[test]
fn sectors_are_added_up() {
    let folder = Folder::new();
    folder.write("show.img", &show());
    let said = folder.vault(&["check", "show.img", "--sectors"]);
    assert_eq!(said.error, "vault: sectors asked for: open 6, part 6, read_file 2, extents 2\n");
}

#[test]
fn the_walk_goes_by_the_descriptors_that_prevail() {
    let mut image = reclosed();
    for moved in [35, 36] {
        locate(&mut image, moved * SECTOR, moved as u32);
    }
    let folder = Folder::new();
    folder.write("a.img", &image);
    let said = folder.vault(&["check", "--highest", "a.img"]);
    assert_eq!((said.status, said.out), (0, all_right(20)));
    assert_ne!(folder.vault(&["check", "a.img"]).status, 0);
}
