//! Images with d-strings of compression id 254 and 255, which the original refuses and the rules give an empty name. They stand behind all
//! other shapes, whose seeds go by their number.

use super::disc::{Layout, with_root};
use super::records::*;
use super::shapes_opening::{Shape, volume};

/// Alone, with a body of each width, an odd one, and one that looks like a name.
const RECORDED: [&[u8]; 8] =
    [&[254], &[255], &[254, 0x41], &[255, 0, 0x41], &[255, 0, 0x41, 0], &[254, 8, 0x41, 0x2f], &[255, 0xd8, 0], &[253, 0x41]];

pub fn shapes() -> Vec<Shape> {
    let mut all = Vec::new();
    for recorded in RECORDED {
        let (here, there) = (field(recorded, 32), field(recorded, 128));
        all.push(volume(&format!("label {recorded:02x?}"), |_, s| s[0] = primary(&here)));
        all.push(volume(&format!("volume name {recorded:02x?}"), |_, s| s[1][84..212].copy_from_slice(&there)));
        for (name, c) in [("shown", 0), ("deleted", DELETED), ("parent", PARENT | DIRECTORY), ("directory", DIRECTORY)] {
            all.push(entry(name, c, recorded));
        }
    }
    all.push(mixed());
    all
}

/// An entry of such a name between two others.
fn entry(name: &str, characteristics: u8, recorded: &[u8]) -> Shape {
    let mut disc = with_root(|d| {
        let (kept, _) = d.store(b"kept", &Layout::of(3));
        let (gone, _) = d.store(b"gone", &Layout::of(3));
        let odd = Item::new(recorded.to_vec(), gone, characteristics);
        (vec![Item::new(name8(b"A"), kept, 0), odd, Item::new(name8(b"B"), kept, 0)], vec![])
    });
    for path in [&b"a"[..], b"b", b"/", b"b/a", b"\xfe", b"\xffA", recorded] {
        disc.path(path);
    }
    (format!("deleted names: {name} {recorded:02x?}"), disc)
}

/// All of them in one directory, that stands under another; a path through it goes on, but for id 253.
fn mixed() -> Shape {
    let mut disc = with_root(|d| {
        let (kept, _) = d.store(b"kept", &Layout::of(3));
        let all = RECORDED[..7].iter().enumerate();
        let mut items: Vec<Item> = all.map(|(i, r)| Item::new(r.to_vec(), kept, if i % 2 == 0 { DELETED } else { 0 })).collect();
        items.push(Item::new(name8(b"Kept"), kept, 0));
        let inner = d.store_directory(&items, &[], &Layout::of(1));
        (vec![Item::new(name8(b"in"), inner, DIRECTORY), Item::new(vec![254], inner, DIRECTORY)], vec![])
    });
    for path in [&b"in/kept"[..], b"IN//KEPT", b"in/none", b"in/kept/x", b"in"] {
        disc.path(path);
    }
    ("deleted names: together".to_string(), disc)
}
