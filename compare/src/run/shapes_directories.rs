//! Images for listing and looking up: nested directories, names, and what may stand among their entries.

use super::calls::Icb;
use super::disc::{Disc, Layout, with_root};
use super::records::*;
use super::shapes_opening::Shape;

pub fn shapes() -> Vec<Shape> {
    let mut all = Vec::new();
    for kind in 0..4 {
        all.push(nested(kind));
        all.push(chained(kind));
    }
    all.extend(skipped());
    all.push(names());
    all.push(cases());
    all.extend(tails());
    all.extend(bad_entries());
    all.push(uses());
    all.push(odd_roots());
    all.push(unreadable());
    all.push(many(700));
    all.extend(cut());
    all
}

/// Directories inside each other, eight deep, with a file in each, and paths to and beyond all of them.
fn nested(kind: u8) -> Shape {
    let mut d = Disc::new(50, 2);
    let layout = Layout { extended: kind % 2 == 1, cuts: vec![100], ..Layout::of(kind) };
    let mut inner: Option<Icb> = None;
    for level in (1..=8).rev() {
        let (file, _) = d.store(format!("file of level {level}").as_bytes(), &Layout::of(level % 4));
        let mut items = vec![Item::new(name8(b"File.txt"), file, 0)];
        items.extend((0..level).map(|i| Item::new(name8(format!("pad{i}").as_bytes()), file, 0)));
        items.extend(inner.map(|icb| Item::new(name8(format!("Dir{level}").as_bytes()), icb, DIRECTORY)));
        inner = Some(d.store_directory(&items, &[], &layout));
    }
    let mut path = String::new();
    for level in 1..=9 {
        for last in ["", "File.txt", "file.TXT", "none", "File.txt/more", "pad0/"] {
            d.path(format!("{path}{last}").as_bytes());
        }
        path += &format!("dIR{level}/");
    }
    d.finish(inner.unwrap(), &name8(b"NESTED"));
    (format!("directories: nested, kind {kind}"), d)
}

/// A directory over a chain, its entries cut where the extents are.
fn chained(kind: u8) -> Shape {
    let mut d = Disc::new(50, 2);
    let (file, _) = d.store(b"end of the chain", &Layout::of(0));
    let items: Vec<Item> = (0..30).map(|i| Item::new(name8(format!("entry{i}").as_bytes()), file, 0)).collect();
    let layout = Layout { cuts: vec![33, 5, 700, 1], per_area: 1, ..Layout::of(kind) };
    let inner = d.store_directory(&items, &[], &layout);
    let top = [Item::new(name8(b"chain"), inner, DIRECTORY)];
    let root = d.store_directory(&top, &[], &Layout { cuts: vec![20, 20], per_area: 1, ..Layout::of(kind) });
    for path in ["chain", "chain/entry0", "chain/ENTRY29", "chain/entry30", "Chain/entry7/x"] {
        d.path(path.as_bytes());
    }
    d.finish(root, &name8(b"CHAIN"));
    (format!("directories: chained, kind {kind}"), d)
}

/// Deleted and parent entries first, last and alone.
fn skipped() -> Vec<Shape> {
    let mut all = Vec::new();
    for (name, c) in [("deleted", DELETED), ("parent", PARENT), ("both", DELETED | PARENT), ("deleted directory", DELETED | DIRECTORY)] {
        for place in ["first", "last", "alone", "between"] {
            let disc = with_root(|d| {
                let (file, _) = d.store(b"kept", &Layout::of(3));
                let (gone, _) = d.store(b"gone", &Layout::of(3));
                let odd = Item::new(name8(b"X"), gone, c);
                let here = |n: &[u8]| Item::new(name8(n), file, 0);
                let items = match place {
                    "first" => vec![odd, here(b"A"), here(b"X")],
                    "last" => vec![here(b"A"), here(b"B"), odd],
                    "alone" => vec![odd],
                    _ => vec![here(b"A"), odd.clone(), here(b"x"), odd],
                };
                (items, vec![])
            });
            all.push((format!("directories: {name} {place}"), disc));
        }
    }
    all
}

/// Names of both widths, with what is dropped from them, and paths that come close.
fn names() -> Shape {
    let mut disc = with_root(|d| {
        let mut items = Vec::new();
        let recorded = [
            name8(b"plain"),
            name8(&[0xe9, 0xc9]),
            name16(&[0xe9]),
            name16(&[0xc9]),
            name16(&[0x41, 0xd800, 0x42]),
            name8(b"AB"),
            name16(&[0xdc00]),
            vec![],
            vec![0, 7, 7],
            vec![8],
            vec![16],
            name8(b"a/b"),
            name8(b"zero\0hidden"),
            name16(&[0x212a]),
            name16(&[0x130]),
            name16(&[0x17f]),
            name16(&[0xfeff, 0xfffe, 0xffff]),
            name8(&[0x80; 254]),
            name16(&[0x3042; 127]),
            name8(b"."),
            name8(b".."),
            name8(b" "),
        ];
        for (i, r) in recorded.into_iter().enumerate() {
            let (file, _) = d.store(format!("file {i}").as_bytes(), &Layout::of(3));
            items.push(Item::new(r, file, if i % 5 == 4 { DIRECTORY } else { 0 }));
        }
        (items, vec![])
    });
    let paths: [&[u8]; 22] = [
        b"PLAIN",
        b"/plain/",
        b"//plain",
        b"plain//x",
        "\u{e9}".as_bytes(),
        "\u{c9}".as_bytes(),
        b"\xe9",
        b"\xc3",
        b"plain\xff",
        b"k",
        "\u{212a}".as_bytes(),
        b"K",
        b"s",
        b"i",
        b"a/b",
        b"/",
        b"///",
        b"",
        b"zero",
        b"zero\0hidden",
        b"\xed\xa0\x80",
        b"\xff/plain",
    ];
    paths.iter().for_each(|p| disc.path(p));
    disc.path(&[b'q'; 700]);
    disc.path("\u{80}".repeat(254).as_bytes());
    disc.path("\u{3042}".repeat(127).as_bytes());
    disc.path("\u{3042}".repeat(128).as_bytes());
    ("directories: names".to_string(), disc)
}

/// Names that differ in case alone, both orders: the first entry wins.
fn cases() -> Shape {
    let mut disc = with_root(|d| {
        let mut items = Vec::new();
        for name in ["10.1A", "10.1a", "b", "B", "[", "{", "@", "`", "Z", "z"] {
            let (file, _) = d.store(name.as_bytes(), &Layout::of(3));
            items.push(Item::new(name8(name.as_bytes()), file, 0));
        }
        (items, vec![])
    });
    for path in ["10.1A", "10.1a", "{", "[", "`", "@", "B", "b", "10.1A/10.1a"] {
        disc.path(path.as_bytes());
    }
    ("directories: case".to_string(), disc)
}

/// 0 to 40 bytes behind the last entry, zero and not, and padding that runs past the data's end.
fn tails() -> Vec<Shape> {
    let mut all = Vec::new();
    for n in 0..=40 {
        let filler = if n % 2 == 0 { 0 } else { 0xff };
        let disc = with_root(|d| {
            let (file, _) = d.store(b"x", &Layout::of(3));
            (vec![Item::new(name8(b"abc"), file, 0)], vec![filler; n])
        });
        all.push((format!("directories: {n} bytes behind"), disc));
    }
    for cut in 1..=4 {
        let mut d = Disc::new(40, 0);
        let (file, _) = d.store(b"x", &Layout::of(3));
        let item = Item::new(name8(b"abcde"), file, 0);
        let information = Some(item.bytes().len() as u64 - cut);
        let root = d.store_directory(&[item], &[], &Layout { information, ..Layout::of(cut as u8 % 4) });
        d.path(b"abcde");
        d.finish(root, &name8(b"CUT"));
        all.push((format!("directories: padding cut by {cut}"), d));
    }
    all
}

/// One bad entry among good ones refuses the whole.
fn bad_entries() -> Vec<Shape> {
    let mut all = Vec::new();
    let bad: [(&str, usize, u8); 8] = [
        ("checksum", 4, 0x77),
        ("reserved", 5, 1),
        ("id", 0, 5),
        ("unlisted id", 1, 9),
        ("name length", 19, 255),
        ("use length", 37, 255),
        ("name's first byte", 38, 7),
        ("odd wide name", 38, 16),
    ];
    for (name, at, v) in bad {
        for place in 0..3 {
            let mut disc = with_root(|d| {
                let (file, _) = d.store(b"x", &Layout::of(3));
                ((0..3).map(|i| Item::new(name8(format!("n{i}x").as_bytes()), file, 0)).collect(), vec![])
            });
            // The last tags but those of the descriptors are the root's entries.
            let size = Item::new(name8(b"n0x"), Icb::default(), 0).bytes().len();
            let first = disc.image.windows(4).position(|w| w == [8, b'n', b'0', b'x']).unwrap() - 38;
            let entry = first + place * size;
            disc.image[entry + at] = v;
            if at != 4 {
                mend(&mut disc.image[entry..]);
            }
            all.push((format!("directories: bad {name} in {place}"), disc));
        }
    }
    all
}

/// Entries with implementation use of many lengths.
fn uses() -> Shape {
    let disc = with_root(|d| {
        let (file, _) = d.store(b"x", &Layout::of(3));
        let lengths = [0, 1, 2, 3, 4, 100, 3000];
        let item = |n: &usize| Item { uses: *n, ..Item::new(name8(format!("use{n}").as_bytes()), file, 0) };
        (lengths.iter().map(item).collect(), vec![])
    });
    ("directories: implementation use".to_string(), disc)
}

/// Entries whose ICBs are odd: of length 0, of other types and partitions, off the image.
fn odd_roots() -> Shape {
    let disc = with_root(|d| {
        let (file, _) = d.store(b"the same file", &Layout::of(1));
        let odd = [
            Icb { length: 0, ..file },
            Icb { extent_type: 3, length: 1, implementation_use: [9; 6], ..file },
            Icb { partition: 77, ..file },
            Icb { block: 1 << 30, ..file },
        ];
        let mut items = Vec::new();
        for (i, icb) in odd.into_iter().enumerate() {
            d.icbs.push(icb);
            items.push(Item::new(name8(format!("file{i}").as_bytes()), icb, 0));
            items.push(Item::new(name8(format!("directory{i}").as_bytes()), icb, DIRECTORY));
            d.path(format!("directory{i}/x").as_bytes());
            d.path(format!("file{i}/x").as_bytes());
        }
        (items, vec![])
    });
    ("directories: odd ICBs".to_string(), disc)
}

/// Directories that can't be read, each in its way, under a root that can.
fn unreadable() -> Shape {
    let mut disc = with_root(|d| {
        let number = d.volume.partition;
        let odd = [
            ("unrecorded", descriptor(1, 50, 1, 0, number)),
            ("elsewhere", descriptor(1, 50, 0, 0, number + 1)),
            ("beyond", descriptor(1, 50, 0, 1 << 20, number)),
            ("lost", descriptor(1, 20, 3, 0, number)),
        ];
        let mut items = Vec::new();
        for (name, behind) in odd {
            let layout = Layout { behind: vec![behind], information: Some(9000), ..Layout::of(1) };
            let inner = d.store_directory(&[Item::new(name8(b"x"), Icb::at(0, number), 0)], &[], &layout);
            items.push(Item::new(name8(name.as_bytes()), inner, DIRECTORY));
        }
        (items, vec![])
    });
    for name in ["unrecorded", "elsewhere", "beyond", "lost"] {
        disc.path(format!("{name}/x").as_bytes());
        disc.path(format!("{name}/x/y").as_bytes());
    }
    ("directories: unreadable".to_string(), disc)
}

/// A disc whose partition is its end, cut in and behind every block.
fn cut() -> Vec<Shape> {
    let mut d = Disc::new(257, 3);
    let (short, _) = d.store(&[b'a'; 3000], &Layout { cuts: vec![2048], per_area: 1, ..Layout::of(0) });
    let (embedded, _) = d.store(b"embedded", &Layout::of(3));
    let inner = d.store_directory(&[Item::new(name8(b"short"), short, 0)], &[], &Layout::of(1));
    let items = [Item::new(name8(b"inner"), inner, DIRECTORY), Item::new(name8(b"embedded"), embedded, 0)];
    let root = d.store_directory(&items, &[], &Layout { per_area: 1, cuts: vec![20], ..Layout::of(2) });
    for path in ["inner", "inner/short", "embedded", "inner/none"] {
        d.path(path.as_bytes());
    }
    d.finish(root, &name8(b"CUT"));
    let mut all = Vec::new();
    for sector in 257..d.image.len() / 2048 {
        for n in [sector * 2048 + 2047, sector * 2048 + 2048] {
            let mut disc = d.clone();
            disc.image.truncate(n);
            all.push((format!("directories: cut at {n}"), disc));
        }
    }
    all
}

/// A directory of many entries.
fn many(n: usize) -> Shape {
    let mut disc = with_root(|d| {
        let (file, _) = d.store(b"one of many", &Layout::of(3));
        ((0..n).map(|i| Item::new(name8(format!("{i:05}").as_bytes()), file, 0)).collect(), vec![])
    });
    disc.paths = vec![b"00000".to_vec(), format!("{:05}", n - 1).into_bytes(), b"none".to_vec()];
    (format!("directories: {n} entries"), disc)
}
