//! Damaged copies of the sample show: what must hold on any disc.

mod common;

use common::command::Folder;
use common::{SECTOR, hold_runs, show};
use strandlodge::{Answered, Counted, DirEntry, How, LongAd, Matching, Refused};

/// Numbers below a bound, the same in each run.
struct Random(u64);

impl Random {
    fn below(&mut self, bound: usize) -> usize {
        self.0 = self.0.wrapping_mul(6_364_136_223_846_793_005).wrapping_add(1_442_695_040_888_963_407);
        (self.0 >> 33) as usize % bound
    }

    fn pick<T: Copy>(&mut self, of: &[T]) -> T {
        of[self.below(of.len())]
    }
}

/// The sectors of the show that hold something.
const USED: [usize; 16] = [32, 33, 34, 35, 256, 290, 291, 292, 293, 294, 295, 296, 297, 298, 299, 300];

/// The show with a few bytes changed, and now and then cut. Half of the time the tag's checksum is mended, so that the change is reached.
fn damaged(show: &[u8], random: &mut Random) -> Vec<u8> {
    let mut image = show.to_vec();
    for _ in 0..1 + random.below(3) {
        let at = random.pick(&USED) * SECTOR;
        let other = random.below(256) as u8;
        image[at + random.below(320)] = random.pick(&[0, 1, 2, 8, 16, 0xff, other]);
        if random.below(2) == 0 {
            let tag = &mut image[at..at + 16];
            tag[4] = 0;
            tag[4] = tag.iter().fold(0, |sum: u8, byte| sum.wrapping_add(*byte));
        }
    }
    if random.below(8) == 0 {
        image.truncate(random.below(show.len()));
    }
    image
}

/// A damaged disc is refused by one of the original's kinds: these are too small for any want of memory.
fn early(refused: &Refused) {
    assert!(refused.number() <= 4, "{refused}");
}

/// The value or the number, and the count.
fn parts<T>(answer: Answered<T>) -> (std::result::Result<T, u64>, u64) {
    match answer {
        Ok(answer) => (Ok(answer.value), answer.sectors),
        Err(refused) => (Err(refused.number()), refused.sectors),
    }
}

/// Reading by path is a lookup and a read, counts added; of a file's bytes an embedded one's are its part.
fn hold_file(vault: &Counted, path: &[u8], icb: LongAd) {
    hold_runs(vault, icb);
    let (read, count) = parts(vault.read_file(icb).inspect_err(early));
    let (by_path, both) = parts(vault.read_path(path));
    assert_eq!((&by_path, both), (&read, vault.lookup(path).unwrap().sectors + count));
    let (part, _) = parts(vault.part(icb).inspect_err(early));
    let (extents, _) = parts(vault.extents(icb).inspect_err(early));
    if let (Ok(bytes), Ok(part), Ok(extents)) = (read, part, extents) {
        let held: usize = extents.iter().map(|extent| extent.length as usize).sum();
        assert!(if extents.is_empty() { bytes == part } else { part.is_empty() && bytes.len() <= held });
    }
}

/// The other choices: the first entry of the very name, and the only one of its letters or 9. `above` is a path that all three give.
fn hold_matching(vault: &Counted, above: &[u8], entries: &[DirEntry], name: &str) {
    let path = [above, b"/", name.as_bytes()].concat();
    let written = entries.iter().find(|entry| entry.name == name).unwrap();
    assert_eq!(vault.lookup_as(&path, Matching::AsWritten).unwrap().value, written.icb);
    let alike: Vec<&DirEntry> = entries.iter().filter(|entry| entry.name.eq_ignore_ascii_case(name)).collect();
    let (only, count) = parts(vault.lookup_as(&path, Matching::Unambiguous));
    let expected = if alike.len() == 1 { Ok(alike[0].icb) } else { Err(9) };
    assert_eq!((only, count), (expected, vault.lookup(&path).unwrap().sectors));
}

/// Whether all three choices give what a path gives, so that what stands below it can be told.
fn is_plain(vault: &Counted, path: &[u8], icb: LongAd) -> bool {
    [Matching::AsWritten, Matching::Unambiguous].iter().all(|m| vault.lookup_as(path, *m).is_ok_and(|found| found.value == icb))
}

/// In a directory a path gives the first entry of its name, and so on below. Gives how many paths were held.
fn hold(vault: &Counted, path: &[u8], icb: LongAd, levels: u32) -> u32 {
    hold_file(vault, path, icb);
    let (Ok(entries), true) = (vault.read_directory(icb).inspect_err(early), levels > 0) else {
        return 1;
    };
    let (mut held, plain) = (1, is_plain(vault, path, icb));
    for name in entries.iter().map(|entry| &entry.name).filter(|name| !name.is_empty() && !name.contains('/')) {
        let below = [path, b"/", name.as_bytes()].concat();
        let first = entries.iter().find(|entry| entry.name.eq_ignore_ascii_case(name)).unwrap();
        assert_eq!(vault.lookup(&below).unwrap().value, first.icb);
        assert_eq!(vault.failed(&below).unwrap().value, None);
        if plain {
            hold_matching(vault, path, &entries, name);
        }
        held += if first.is_directory { hold(vault, &below, first.icb, levels - 1) } else { 1 };
        hold_file(vault, &below, first.icb);
    }
    held
}

#[test]
fn what_holds_on_any_disc() {
    let (show, mut random) = (show(), Random(1));
    let (mut opened, mut held) = (0, 0);
    for _ in 0..2_000 {
        let image = damaged(&show, &mut random);
        if let Ok(vault) = Counted::open(&image).inspect_err(early) {
            opened += 1;
            held += hold(&vault, b"", vault.root_directory_icb(), 3);
        }
    }
    assert!(opened > 1_000 && held > 5_000, "{opened} {held}");
}

/// A checked call is answered as an unchecked one is, or refused by 10, after no more sectors.
fn same_or_10<T: PartialEq + std::fmt::Debug>(checked: Answered<T>, plain: Answered<T>) -> bool {
    let (checked, plain) = (parts(checked), parts(plain));
    match checked.0 {
        Err(10) => assert!(checked.1 <= plain.1, "{checked:?} {plain:?}"),
        _ => assert_eq!(checked, plain),
    }
    checked.0 == Err(10)
}

/// The calls on two vaults of one image. Gives how many were refused by 10, and how many weren't.
fn hold_checked(checked: &Counted, plain: &Counted) -> [u32; 2] {
    let mut seen = [0; 2];
    let mut note = |bad: bool| seen[usize::from(!bad)] += 1;
    for path in ["", "SHOW", "SHOW/9", "show/10.1a", "SHOW/11", "none"] {
        note(same_or_10(checked.lookup(path), plain.lookup(path)));
        note(same_or_10(checked.failed(path), plain.failed(path)));
        note(same_or_10(checked.read_path(path), plain.read_path(path)));
        if let Ok(icb) = plain.lookup(path) {
            note(same_or_10(checked.read_file(icb), plain.read_file(icb)));
            note(same_or_10(checked.read_directory(icb), plain.read_directory(icb)));
            note(same_or_10(checked.extents(icb), plain.extents(icb)));
            note(same_or_10(checked.part(icb), plain.part(icb)));
        }
    }
    seen
}

#[test]
fn what_a_check_of_bodies_changes() {
    let (show, mut random, how) = (show(), Random(3), How { checked: true, ..How::default() });
    let (mut opened, mut seen) = ([0; 2], [0; 2]);
    for _ in 0..2_000 {
        let image = damaged(&show, &mut random);
        let (checked, plain) = (Counted::open_as(&image, how), Counted::open(&image));
        let both = (checked.as_ref().ok().copied(), plain.as_ref().ok().copied());
        let bad = same_or_10(
            checked.map(|answer| answer.map(|v| v.root_directory_icb())),
            plain.map(|answer| answer.map(|v| v.root_directory_icb())),
        );
        opened[usize::from(!bad)] += 1;
        if let (Some(checked), Some(plain)) = both {
            let more = hold_checked(&checked, &plain);
            (0..2).for_each(|i| seen[i] += more[i]);
        }
    }
    assert!(opened.iter().all(|n| *n > 300) && seen.iter().all(|n| *n > 2_000), "{opened:?} {seen:?}");
}

/// A check of any disc ends, and by a status of the table: all right, the refusals of opening, one wrong, not all read.
#[test]
fn a_check_ends_on_any_disc() {
    let (show, mut random, folder) = (show(), Random(2), Folder::new());
    let mut statuses = std::collections::BTreeMap::new();
    for _ in 0..400 {
        folder.write("a.img", &damaged(&show, &mut random));
        let said = folder.vault(&["check", "a.img"]);
        assert!(matches!(said.status, 0..=4 | 65 | 67), "{said:?}");
        *statuses.entry(said.status).or_insert(0) += 1;
    }
    assert!([0, 1, 2, 67].iter().all(|status| statuses.contains_key(status)), "{statuses:?}");
}
