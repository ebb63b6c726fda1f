//! Images with right CRCs, in which each descriptor in its turn is ruined in each way; and CRCs of bytes up to where those at hand end. They
//! aren't in the list that is kept.

use super::bodies::Ruin;
use super::calls::Icb;
use super::disc::{Disc, Layout};
use super::random::Random;
use super::records::*;
use super::shapes_opening::Shape;

pub fn shapes() -> Vec<Shape> {
    let whole = of_all_kinds();
    let mut all = vec![("bodies: all right".to_string(), whole.clone())];
    for (i, noted) in whole.noted.iter().enumerate() {
        for way in Ruin::ALL {
            let (mut disc, mut random) = (whole.clone(), Random::new(i as u64));
            disc.ruin(noted, way, &mut random);
            all.push((format!("bodies: {way:?} of {i}"), disc));
        }
    }
    all.push(headers());
    all.extend(directories());
    all
}

/// A descriptor of every kind: a file over a chain, an embedded one, a directory whose entries are cut where its extents are, with deleted and
/// parent ones, and an embedded one. In the sequence one stands that is passed over.
fn of_all_kinds() -> Disc {
    let mut d = Disc::new(45, 3);
    let chained = Layout { cuts: vec![100, 100], per_area: 1, slack: 2048, ..Layout::of(0) };
    let (far, _) = d.store(&[7; 300], &chained);
    let (near, _) = d.store(b"embedded", &Layout { extended: true, ..Layout::of(3) });
    let parent = Item::new(vec![], Icb::at(0, 3), PARENT | DIRECTORY);
    let named = |name: &[u8], icb, marks| Item::new(name8(name), icb, marks);
    let cut = [parent.clone(), named(b"far", far, 0), named(b"gone", near, DELETED), named(b"Far", near, 0)];
    let cut = d.store_directory(&cut, &[0; 9], &Layout { cuts: vec![50, 60], extended: true, ..Layout::of(1) });
    let small = d.store_directory(&[parent.clone(), named(b"far", far, 0)], &[], &Layout::of(3));
    let top = [parent, named(b"cut", cut, DIRECTORY), named(b"small", small, DIRECTORY), named(b"near", near, 0)];
    let root = d.store_directory(&top, &[], &Layout::of(2));
    d.recognise(&[b"BEA01", b"NSR02", b"TEA01"]);
    let file_set = d.put_file_set(root);
    let logical = logical(&field(&name8(b"volume"), 128), 2048, file_set);
    d.sequence(32, &[tagged(4, 512), primary(&field(&name8(b"BODIES"), 32)), logical, partition(3, 45, 1000), tagged(8, 512)], 0);
    for path in ["cut/far", "CUT/FAR", "cut/gone", "small/far", "near", "near/x", "none"] {
        d.path(path.as_bytes());
    }
    d.seal();
    d
}

/// Headers with CRCs up to the end of one sector and into the next, come to by continuations that end around both: all of their sectors are
/// at hand, wherever in them they end.
fn headers() -> Shape {
    let mut d = Disc::new(41, 5);
    let data = d.take(1);
    d.put(41 + u64::from(data), &[b'd'; 60]);
    for length in [2031, 2032, 2033, 4079, 4080, 4081] {
        let mut bytes = allocation_extent(&descriptor(0, 60, 0, data, 5));
        bytes.resize(3 * 2048, 0x5a);
        seal(&mut bytes, length);
        let header = d.take(3);
        d.put_block(header, &bytes);
        for continued in [32, 2047, 2048, 2049, 4095, 4096, 4097, 6144] {
            let area = descriptor(0, continued, 3, header, 5);
            let block = d.take(1);
            d.put_block(block, &Entry { extended: false, flags: 0, information: 60, attributes: 0, area: &area }.bytes());
            d.icbs.push(Icb::at(block, 5));
        }
    }
    let items: Vec<Item> = d.icbs.iter().enumerate().map(|(i, icb)| Item::new(name8(format!("f{i}").as_bytes()), *icb, 0)).collect();
    (0..items.len()).for_each(|i| d.path(format!("f{i}").as_bytes()));
    let root = d.store_directory(&items, &[], &Layout::of(0));
    d.finish(root, &name8(b"HEADERS"));
    ("bodies: headers over some sectors".to_string(), d)
}

/// Directories whose last entry has a CRC of bytes up to the end of what their extents hold, with information lengths around that: at hand is
/// the directory's data, and no more.
fn directories() -> Vec<Shape> {
    let mut all = Vec::new();
    for kind in [0, 3] {
        for (name, marks) in [("last", 0), ("deleted", DELETED), ("parent", PARENT)] {
            let mut d = Disc::new(40, 0);
            let (file, _) = d.store(b"x", &Layout::of(3));
            let mut folders = Vec::new();
            for information in [0, 1, 2, 3, 9].map(|n| n + 87) {
                let mut bytes = Item::new(name8(b"one"), file, 0).bytes();
                let mut last = [Item::new(name8(b"two"), file, marks).bytes(), vec![0; 1]].concat();
                let length = last.len() - 16;
                seal(&mut last, length);
                bytes.extend(last);
                assert_eq!(bytes.len(), 89);
                bytes.resize(120, 0);
                folders.push(d.store(&bytes, &Layout { information: Some(information), ..Layout::of(kind) }).0);
            }
            let named = |(i, icb): (usize, &Icb)| Item::new(name8(format!("d{i}").as_bytes()), *icb, DIRECTORY);
            let items: Vec<Item> = folders.iter().enumerate().map(named).collect();
            for (i, file) in (0..items.len()).flat_map(|i| ["one", "two", "none"].map(|file| (i, file))) {
                d.path(format!("d{i}/{file}").as_bytes());
            }
            let root = d.store_directory(&items, &[], &Layout::of(0));
            d.finish(root, &name8(b"ENDS"));
            all.push((format!("bodies: a directory's end, kind {kind}, {name}"), d));
        }
    }
    all
}
