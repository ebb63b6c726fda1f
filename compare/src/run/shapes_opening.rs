//! Images for opening, the label and the probe: one for each thing that may stand in the way.

use super::calls::Icb;
use super::disc::{ANCHOR, Disc, Layout};
use super::records::*;

pub type Shape = (String, Disc);

/// A disc with a file, and a sequence of the usual four descriptors (label, logical volume, partition, end) that `edit` may change.
pub fn volume(name: &str, edit: impl FnOnce(&mut Disc, &mut Vec<Vec<u8>>)) -> Shape {
    placed(name, 40, 7, edit)
}

fn placed(name: &str, start: u32, number: u16, edit: impl FnOnce(&mut Disc, &mut Vec<Vec<u8>>)) -> Shape {
    let mut disc = Disc::new(start, number);
    let (file, _) = disc.store(b"the file", &Layout::of(3));
    let root = disc.store_directory(&[Item::new(name8(b"A"), file, 0)], &[], &Layout::of(3));
    disc.path(b"A");
    disc.recognise(&[b"BEA01", b"NSR02", b"TEA01"]);
    let file_set = disc.put_file_set(root);
    let mut sequence = vec![
        primary(&field(&name8(b"DISC"), 32)),
        logical(&field(&name8(b"volume"), 128), 2048, file_set),
        partition(number, start, 1000),
        tagged(8, 512),
    ];
    edit(&mut disc, &mut sequence);
    disc.sequence(32, &sequence, 0);
    (format!("open: {name}"), disc)
}

/// The usual disc, changed once it is whole.
fn changed(name: &str, change: impl FnOnce(&mut Disc)) -> Shape {
    let (name, mut disc) = volume(name, |_, _| {});
    change(&mut disc);
    (name, disc)
}

fn remended(mut b: Vec<u8>, at: usize, v: u8) -> Vec<u8> {
    b[at] = v;
    mend(&mut b);
    b
}

/// The file set descriptor's ICB, as the sequence has it.
fn file_set_in(sequence: &[Vec<u8>]) -> Icb {
    let at = u32::from_le_bytes(sequence[1][252..256].try_into().unwrap());
    let number = u16::from_le_bytes(sequence[1][256..258].try_into().unwrap());
    Icb::at(at, number)
}

pub fn shapes() -> Vec<Shape> {
    let mut all = vec![volume("good", |_, _| {})];
    sequences(&mut all);
    missing(&mut all);
    labels(&mut all);
    mounts(&mut all);
    lengths(&mut all);
    recognitions(&mut all);
    anchors(&mut all);
    all
}

fn sequences(all: &mut Vec<Shape>) {
    let other = primary(&field(&name8(b"OTHER"), 32));
    let (o, p, q) = (other.clone(), other.clone(), other.clone());
    all.push(volume("two labels", |_, s| s.insert(3, other)));
    all.push(volume("two labels, the first bad", |_, s| {
        s[0][24] = 99;
        s.insert(3, o)
    }));
    all.push(volume("two labels, the second bad", |_, s| {
        let mut bad = p;
        bad[55] = 32;
        s.insert(3, bad)
    }));
    all.push(volume("a label behind the end", |_, s| s.push(q)));
    all.push(volume("two partitions", |d, s| s.insert(3, partition(7, d.volume.start + 1, 9))));
    all.push(volume("two partitions, the first right", |_, s| s.insert(3, partition(8, 40, 9))));
    all.push(volume("two partitions, the last right", |_, s| s.insert(2, partition(8, 41, 9))));
    all.push(volume("two logical volumes", |_, s| s.insert(1, logical(&field(&name8(b"x"), 128), 512, Icb::at(0, 9)))));
    all.push(volume("two logical volumes, the last bad", |_, s| s.insert(3, logical(&field(&name8(b"x"), 128), 512, Icb::at(0, 9)))));
    all.push(volume("end first", |_, s| s.swap(0, 3)));
    all.push(volume("end in between", |_, s| s.swap(2, 3)));
    all.push(volume("no end", |_, s| s.truncate(3)));
    all.push(volume("ruined end", |_, s| s[3][4] ^= 0xff));
    all.push(volume("ruined end first", |_, s| {
        s[3][5] = 1;
        s.swap(0, 3)
    }));
    for id in [0u16, 10, 255, 267, 1024, 65535] {
        all.push(volume(&format!("unlisted id {id}"), |_, s| s.insert(1, id.to_le_bytes().to_vec())));
    }
    for id in [2u16, 3, 4, 7, 9, 256, 257, 258, 261, 266] {
        all.push(volume(&format!("id {id} passed over"), |_, s| s.insert(1, id.to_le_bytes().to_vec())));
    }
    for i in 0..3 {
        all.push(volume(&format!("descriptor {i} with a bad checksum"), |_, s| s[i][4] ^= 1));
        all.push(volume(&format!("descriptor {i} reserved"), |_, s| s[i] = remended(std::mem::take(&mut s[i]), 5, 1)));
    }
}

fn missing(all: &mut Vec<Shape>) {
    for (i, name) in ["label", "logical volume", "partition"].iter().enumerate() {
        all.push(volume(&format!("no {name}"), |_, s| {
            s.remove(i);
        }));
        all.push(volume(&format!("only the {name}"), |_, s| {
            let one = s[i].clone();
            *s = vec![one];
        }));
    }
    all.push(volume("no descriptor", |_, s| s.clear()));
}

fn labels(all: &mut Vec<Shape>) {
    let names: Vec<(&str, Vec<u8>)> = vec![
        ("latin", name8(&[0x41, 0xe9, 0xff, 0x80])),
        ("zero inside", name8(b"AB\0CD")),
        ("wide", name16(&[0x41, 0xe9, 0x3042, 0xffff])),
        ("wide with surrogates", name16(&[0x41, 0xd800, 0xdfff, 0x42])),
        ("wide, zero inside", name16(&[0x41, 0, 0x42])),
        ("wide, odd", vec![16, 0, 0x41, 0]),
        ("wide, nothing", vec![16]),
        ("nothing", vec![]),
        ("nothing but a zero", vec![0, 65]),
        ("id 8 alone", vec![8]),
        ("id 9", vec![9, 65]),
        ("id 254", vec![254]),
        ("full", name8(&[b'F'; 30])),
        ("full and wide", name16(&[0x3042; 15])),
    ];
    for (name, recorded) in names {
        let (here, there) = (field(&recorded, 32), field(&recorded, 128));
        all.push(volume(&format!("label {name}"), |_, s| s[0] = primary(&here)));
        all.push(volume(&format!("volume name {name}"), |_, s| s[1][84..212].copy_from_slice(&there)));
    }
    for length in [30, 31, 32, 255] {
        all.push(volume(&format!("label length {length}"), |_, s| s[0][55] = length));
    }
    for length in [126, 127, 128, 255] {
        all.push(volume(&format!("volume name length {length}"), |_, s| s[1][211] = length));
    }
}

fn mounts(all: &mut Vec<Shape>) {
    for size in [0, 1, 512, 2047, 2049, 4096, u32::MAX] {
        all.push(volume(&format!("block size {size}"), |_, s| put32(&mut s[1], 212, size)));
    }
    all.push(volume("file set in another partition", |_, s| put16(&mut s[1], 256, 8)));
    all.push(volume("partition of another number", |_, s| put16(&mut s[2], 22, 8)));
    for block in [1, 30, 5000, u32::MAX] {
        all.push(volume(&format!("file set at {block}"), |_, s| put32(&mut s[1], 252, block)));
    }
    for (name, at, v) in [("id", 0, 1), ("checksum", 4, 0xee), ("reserved", 5, 1), ("unlisted id", 0, 20)] {
        all.push(volume(&format!("file set's {name}"), |d, s| {
            let sector = d.volume.start as usize + file_set_in(s).block as usize;
            d.image[sector * 2048 + at] = v;
            if at != 4 && at != 5 {
                mend(&mut d.image[sector * 2048..]);
            }
        }));
    }
    for (start, number) in [(0, 0), (1, 65535), (41, 256), (255, 1), (257, 9), (700, 32768)] {
        all.push(placed(&format!("start {start}, number {number}"), start, number, |_, _| {}));
    }
    all.push(volume("start at the end of numbers", |_, s| put32(&mut s[2], 188, u32::MAX)));
    all.push(volume("file set's ICB of type 3 and length 0", |_, s| put32(&mut s[1], 248, 0xc000_0000)));
}

fn lengths(all: &mut Vec<Shape>) {
    for n in [0, 1, 2047, 2048, 36 * 2048 - 1, 36 * 2048, 256 * 2048, 257 * 2048 - 1, 257 * 2048 + 1, 258 * 2048] {
        all.push(changed(&format!("image of {n}"), |d| d.image.resize(n, 0)));
    }
    for n in [0, 1, 2047, 2048, 3 * 2048 - 1, 3 * 2048, 4 * 2048 + 2047, 9 * 2048, 400 * 2048, u32::MAX] {
        all.push(changed(&format!("sequence of {n}"), |d| {
            put32(&mut d.image, ANCHOR as usize * 2048 + 16, n);
            // With no end, the whole length is walked.
            d.image[35 * 2048..36 * 2048].fill(0);
        }));
    }
    for at in [0, 31, 33, 253, 255, 256, 257, 100_000, u32::MAX] {
        all.push(changed(&format!("sequence at {at}"), |d| put32(&mut d.image, ANCHOR as usize * 2048 + 20, at)));
    }
}

fn recognitions(all: &mut Vec<Shape>) {
    let mut one = |name: &str, ids: &[&[u8; 5]]| {
        all.push(changed(&format!("recognition {name}"), |d| {
            d.image[16 * 2048..26 * 2048].fill(0);
            d.recognise(ids);
        }));
    };
    one("of nothing", &[]);
    one("of NSR03", &[b"BEA01", b"NSR03", b"TEA01"]);
    one("with no NSR", &[b"BEA01", b"TEA01"]);
    one("with no BEA", &[b"NSR02", b"TEA01"]);
    one("with no TEA", &[b"BEA01", b"NSR02"]);
    one("of TEA alone", &[b"TEA01"]);
    one("in another order", &[b"NSR03", b"BEA01", b"TEA01"]);
    one("behind ISO 9660", &[b"CD001", b"CDW02", b"BEA01", b"NSR02", b"TEA01"]);
    one("that ends in the eighth", &[b"CD001", b"CD001", b"CD001", b"CD001", b"CD001", b"BEA01", b"NSR02", b"TEA01"]);
    one("that ends in the ninth", &[b"CD001", b"CD001", b"CD001", b"CD001", b"CD001", b"CD001", b"BEA01", b"NSR02", b"TEA01"]);
    one("with NSR behind TEA", &[b"BEA01", b"TEA01", b"NSR02"]);
    one("of another NSR", &[b"BEA01", b"NSR04", b"TEA01"]);
    one("of BOOT2", &[b"BEA01", b"BOOT2", b"NSR02", b"TEA01"]);
    for i in 0..3 {
        all.push(changed(&format!("recognition of type 1 in {i}"), |d| d.image[(16 + i) * 2048] = 1));
    }
    for n in [16 * 2048, 17 * 2048 - 1, 17 * 2048, 19 * 2048 - 1, 19 * 2048] {
        all.push(changed(&format!("recognition in an image of {n}"), |d| d.image.truncate(n)));
    }
}

fn anchors(all: &mut Vec<Shape>) {
    let at = ANCHOR as usize * 2048;
    for id in [0u16, 1, 3, 10, 256, 65535] {
        all.push(changed(&format!("anchor of id {id}"), |d| {
            put16(&mut d.image, at, id);
            mend(&mut d.image[at..]);
        }));
    }
    all.push(changed("anchor's checksum", |d| d.image[at + 4] ^= 0x10));
    all.push(changed("anchor reserved", |d| {
        d.image[at + 5] = 1;
        mend(&mut d.image[at..]);
    }));
    all.push(changed("anchor moved to 257", |d| {
        let anchor = d.image[at..at + 2048].to_vec();
        d.put(257, &anchor);
        d.image[at..at + 2048].fill(0);
    }));
}
