//! Images for the choices of matching: names that are equal, and equal but for case, with what may stand beside them. They aren't among the
//! shapes of the list that is kept.

use super::calls::Icb;
use super::disc::{Disc, Layout, with_root};
use super::records::*;
use super::shapes_opening::Shape;

pub fn shapes() -> Vec<Shape> {
    let mut all = Vec::new();
    all.extend(pairs());
    all.push(many());
    all.extend(unlisted());
    all.extend(behind());
    for depth in 1..=4 {
        all.push(folders(depth));
    }
    all.push(below_a_file());
    all
}

/// Two entries of a directory, of each sort of likeness, alone and with others around them.
fn pairs() -> Vec<Shape> {
    let names: [(&str, Vec<u8>, Vec<u8>); 12] = [
        ("equal", name8(b"cue"), name8(b"cue")),
        ("of other case", name8(b"10.1A"), name8(b"10.1a")),
        ("of all other case", name8(b"CUE"), name8(b"cue")),
        ("equal in two widths", name8(b"cue"), name16(&[0x63, 0x75, 0x65])),
        ("of other case in two widths", name8(b"Cue"), name16(&[0x63, 0x75, 0x65])),
        ("equal by a dropped surrogate", name16(&[0x63, 0xd800, 0x75]), name8(b"cu")),
        ("equal by a zero", name8(b"cue\0hidden"), name8(b"cue")),
        ("of other case outside ASCII", name8(&[0xc9]), name8(&[0xe9])),
        ("of a sign beside the letters", name8(b"[@"), name8(b"{`")),
        ("of a letter that folds elsewhere", name16(&[0x212a]), name8(b"k")),
        ("of which one goes on", name8(b"cue"), name8(b"cue2")),
        ("empty", name8(b""), vec![]),
    ];
    let mut all = Vec::new();
    for (like, one, two) in names {
        for around in [false, true] {
            let mut disc = with_root(|d| {
                let mut item = |recorded: &[u8]| {
                    let (file, _) = d.store(recorded, &Layout::of(3));
                    Item::new(recorded.to_vec(), file, 0)
                };
                let pair = [item(&one), item(&two)];
                let [before, between, after] = [b"before", b"betwix", b"behind"].map(|name| item(&name8(name)));
                let [one, two] = pair;
                (if around { vec![before, one, between, two, after] } else { vec![one, two] }, vec![])
            });
            for path in disc.paths.clone() {
                for other in [path.to_ascii_uppercase(), path.to_ascii_lowercase(), [&path[..], b"/below"].concat()] {
                    disc.path(&other);
                }
            }
            all.push((format!("matching: names {like}{}", if around { ", among others" } else { "" }), disc));
        }
    }
    all
}

/// Many entries of one name, in every case that it has.
fn many() -> Shape {
    let mut disc = with_root(|d| {
        let mut items = Vec::new();
        for i in 0..16u8 {
            let letters: Vec<u8> = (0..3).map(|bit| b"abc"[bit] ^ (i >> bit & 1) << 5).collect();
            let (file, _) = d.store(&[i], &Layout::of(3));
            items.push(Item::new(name8(&letters), file, 0));
        }
        (items, vec![])
    });
    disc.path(b"abcd");
    disc.path(b"ab");
    ("matching: sixteen of one name".to_string(), disc)
}

/// Entries that are deleted or the parent beside one or two that are not: only the latter match.
fn unlisted() -> Vec<Shape> {
    let mut all = Vec::new();
    for (name, c) in [("deleted", DELETED), ("parent", PARENT), ("both", DELETED | PARENT), ("deleted directory", DELETED | DIRECTORY)] {
        for kept in 0..8 {
            let disc = with_root(|d| {
                let mut items = Vec::new();
                for (i, letters) in [b"Cue", b"cue", b"Cue"].into_iter().enumerate() {
                    let (file, _) = d.store(&[i as u8], &Layout::of(3));
                    items.push(Item::new(name8(letters), file, if kept >> i & 1 == 1 { 0 } else { c }));
                }
                (items, vec![])
            });
            all.push((format!("matching: {name} but for {kept:03b}"), disc));
        }
    }
    all
}

/// Two that match with a bad entry behind, between or in front: the directory is refused, whatever matches.
fn behind() -> Vec<Shape> {
    let mut all = Vec::new();
    for place in 0..3 {
        let disc = with_root(|d| {
            let (file, _) = d.store(b"x", &Layout::of(3));
            let mut items = vec![Item::new(name8(b"Cue"), file, 0), Item::new(name8(b"cue"), file, 0)];
            items.insert(place, Item::new(vec![7, 7], file, 0));
            (items, vec![])
        });
        all.push((format!("matching: a bad entry in {place}"), disc));
    }
    all
}

/// Directories inside each other, four deep; at one depth two are equal but for case, with other files in them.
fn folders(ambiguous: usize) -> Shape {
    let mut d = Disc::new(50, 2);
    let mut inner: [Option<Icb>; 2] = [None, None];
    for level in (1..=4).rev() {
        let mut made = [None, None];
        for side in 0..2 {
            let (file, _) = d.store(format!("{level} {side}").as_bytes(), &Layout::of(side as u8));
            let mut items = vec![Item::new(name8(b"file"), file, 0)];
            items.extend(inner[side].map(|icb| Item::new(name8(b"dir"), icb, DIRECTORY)));
            if level == ambiguous {
                items.extend(inner[1 - side].map(|icb| Item::new(name8(b"DIR"), icb, DIRECTORY)));
                items.push(Item::new(name8(b"FILE"), file, 0));
            }
            // Wider towards the top, and at the bottom: so that work space ends at each in turn.
            items.extend((0..(level * 7) % 5).map(|i| Item::new(name8(format!("pad {i}").as_bytes()), file, 0)));
            made[side] = Some(d.store_directory(&items, &[], &Layout::of((level % 3) as u8)));
        }
        inner = made;
    }
    for depth in 0..4 {
        for folder in ["dir/", "DIR/"] {
            for last in ["file", "FILE", "none", "file/below", ""] {
                d.path(format!("{}{last}", folder.repeat(depth)).as_bytes());
                d.path(format!("{}{}{last}", "dir/".repeat(depth / 2), folder.repeat(depth - depth / 2)).as_bytes());
            }
        }
    }
    d.finish(inner[0].unwrap(), &name8(b"FOLDERS"));
    (format!("matching: folders, ambiguous at {ambiguous}"), d)
}

/// A file and a directory of one name: what stands below is found by which of them is taken.
fn below_a_file() -> Shape {
    let mut disc = with_root(|d| {
        let (file, _) = d.store(b"a file", &Layout::of(3));
        let inner = d.store_directory(&[Item::new(name8(b"below"), file, 0)], &[], &Layout::of(3));
        (vec![Item::new(name8(b"Act"), file, 0), Item::new(name8(b"act"), inner, DIRECTORY), Item::new(name8(b"act"), file, 0)], vec![])
    });
    for path in ["Act/below", "act/below", "ACT/below", "act/Below", "act/none"] {
        disc.path(path.as_bytes());
    }
    ("matching: a file and a directory".to_string(), disc)
}
