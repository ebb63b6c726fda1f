//! Images for surveys: trees around 16 levels deep, directories that hold themselves or have several names, and files of every kind at each level;
//! with bodies that are right, or wrong in a file or in a directory. Each has one partition map, whose reference is the partition's number.

use super::calls::Icb;
use super::disc::{Disc, Layout};
use super::records::*;
use super::shapes_opening::Shape;

const START: u32 = 300;

/// Files of each kind, one behind five continuations, one whose extents hold less than it says, and one that isn't there.
fn files(d: &mut Disc) -> Vec<Icb> {
    let chained = Layout { cuts: vec![100; 30], per_area: 5, ..Layout::of(0) };
    let short = Layout { information: Some(9000), ..Layout::of(1) };
    let mut all: Vec<Icb> = [Layout::of(3), Layout::of(2), chained, short].iter().map(|layout| d.store(&[7; 5000], layout).0).collect();
    all.push(Icb::at(90_000, 0));
    all
}

/// A directory with a file in front and one behind what else it has.
fn directory(d: &mut Disc, files: &[Icb], level: usize, inner: &[Item]) -> Icb {
    let file = |i: usize| Item::new(name8(format!("file {i}").as_bytes()), files[i % files.len()], 0);
    let items = [&[file(level)], inner, &[file(level + 1)]].concat();
    d.store_directory(&items, &[], &Layout::of([3, 0][level % 2]))
}

fn folder(name: &str, icb: Icb) -> Item {
    Item::new(name8(name.as_bytes()), icb, DIRECTORY)
}

/// Directories inside each other, whose last has entries at this level; each has so many names in the one above.
fn nested(d: &mut Disc, levels: usize, names: usize) -> Icb {
    let files = files(d);
    let mut inner = Vec::new();
    for level in (1..levels).rev() {
        let at = directory(d, &files, level, &inner);
        inner = (0..names).map(|i| folder(&format!("folder {i}"), at)).collect();
    }
    directory(d, &files, 0, &inner)
}

/// A disc around a root, with a map.
fn disc(make: impl FnOnce(&mut Disc) -> Icb) -> Disc {
    let mut d = Disc::new(START, 0);
    let root = make(&mut d);
    d.finish(root, &name8(b"TREE"));
    let logical = &mut d.image[33 * 2048..34 * 2048];
    put32(logical, 264, 6);
    put32(logical, 268, 1);
    logical[440..446].copy_from_slice(&map(1, 0));
    d.seal();
    d
}

/// A root that holds the directory of this ICB, which its own is once it is known.
fn holding(at: Icb) -> Disc {
    disc(|d| {
        let files = files(d);
        directory(d, &files, 1, &[folder("itself", at)])
    })
}

/// The same disc with a bit of the body of an entry flipped.
fn ruined(whole: &Disc, icb: Icb) -> Disc {
    let mut d = whole.clone();
    d.image[(START + icb.block) as usize * 2048 + 100] ^= 1;
    d
}

pub fn shapes() -> Vec<Shape> {
    let tree = |levels, names| disc(|d| nested(d, levels, names));
    let mut all: Vec<Shape> = [1, 2, 15, 16, 17].map(|levels| (format!("a tree of {levels} levels"), tree(levels, 1))).to_vec();
    all.push(("directories of two names".to_string(), tree(6, 2)));
    all.push(("a disc made to do harm".to_string(), tree(14, 20)));
    all.push(("a root that holds itself".to_string(), holding(holding(Icb::at(0, 0)).volume.root)));
    let whole = tree(4, 1);
    // The first are the files, and the last the root.
    for i in [0, 1, 2, 3, 4, whole.icbs.len() - 1] {
        all.push((format!("a tree with entry {i} ruined"), ruined(&whole, whole.icbs[i])));
    }
    all
}
