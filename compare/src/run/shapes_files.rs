//! Images for reading: kinds of areas, chains, types, partitions and lengths.

use super::calls::Icb;
use super::disc::{Disc, Layout, contents};
use super::random::Random;
use super::records::*;
use super::shapes_opening::Shape;

pub const NUMBER: u16 = 5;

pub fn disc() -> Disc {
    Disc::new(41, NUMBER)
}

/// Makes the disc one that can be opened: a root that holds every file under a number.
pub fn closed(name: &str, mut disc: Disc) -> Shape {
    let mut items = vec![Item::new(vec![], Icb::at(0, NUMBER), PARENT)];
    // The root's entries refer to all files, so that each can be read by path too.
    for (i, icb) in disc.icbs.clone().iter().enumerate() {
        let name = format!("f{i}");
        disc.path(name.as_bytes());
        items.push(Item::new(name8(name.as_bytes()), *icb, 0));
    }
    let root = disc.store_directory(&items, &[], &Layout::of(0));
    disc.finish(root, &name8(b"FILES"));
    (format!("files: {name}"), disc)
}

/// An entry with this area as it stands.
pub fn raw(disc: &mut Disc, kind: u8, extended: bool, information: u64, area: &[u8]) -> Icb {
    let block = disc.take(1);
    disc.put_block(block, &Entry { extended, flags: kind as u16, information, attributes: 0, area }.bytes());
    let icb = Icb::at(block, NUMBER);
    disc.icbs.push(icb);
    icb
}

/// Blocks with contents, which descriptors may point to.
pub fn blocks(disc: &mut Disc, random: &mut Random, n: usize) -> u32 {
    let at = disc.take(n as u32);
    let bytes = contents(random, n * 2048, true);
    disc.put(disc.volume.start as u64 + at as u64, &bytes);
    at
}

pub fn shapes() -> Vec<Shape> {
    let mut random = Random::new(5);
    let mut all = Vec::new();
    for extended in [false, true] {
        all.push(kinds(&mut random, extended));
        all.push(overruns(extended));
    }
    for kind in 0..3 {
        all.push(informations(&mut random, kind));
        all.push(types(&mut random, kind));
        all.push(ends(&mut random, kind));
        all.push(chains(&mut random, kind));
        all.push(loops(&mut random, kind));
        all.push(continuations(&mut random, kind));
        all.push(off_the_image(&mut random, kind));
    }
    all.push(exts(&mut random));
    all.push(entries(&mut random));
    all.push(long_continuations());
    all
}

/// The example of RULES 7.11, and files of every kind.
fn kinds(random: &mut Random, extended: bool) -> Shape {
    let mut d = disc();
    for kind in 0..4 {
        let layout = Layout { extended, cuts: vec![3000, 100], ..Layout::of(kind) };
        for n in [0, 1, 1500, 2048, 5000] {
            let bytes = contents(random, n, true);
            d.store(&bytes, &layout);
        }
        for (information, attributes) in [(3050, 0), (0, 40), (3101, 8), (3100, 100)] {
            let at = blocks(&mut d, random, 6);
            let parts = [(3000, 0, at), (100, 0, at + 2), (5000, 1, at + 3)];
            let area: Vec<u8> = parts.iter().flat_map(|(n, t, b)| descriptor(kind.min(2), *n, *t, *b, NUMBER)).collect();
            let block = d.take(1);
            d.put_block(block, &Entry { extended, flags: kind as u16, information, attributes, area: &area }.bytes());
            d.icbs.push(Icb::at(block, NUMBER));
        }
    }
    closed(if extended { "kinds, extended" } else { "kinds" }, d)
}

/// Lengths of attributes and area up to the end of the sector and beyond, for each kind, and flags that name no kind.
fn overruns(extended: bool) -> Shape {
    let mut d = disc();
    let room = 2048 - Entry::prefix(extended) as u32;
    let lengths = [
        (0, room),
        (0, room + 1),
        (room, 0),
        (room + 1, 0),
        (room - 24, 24),
        (room - 24, 25),
        (u32::MAX, 0),
        (0, u32::MAX),
        (u32::MAX, u32::MAX),
        (1 << 31, 1 << 31),
    ];
    for kind in 0..8u8 {
        for (attributes, area) in lengths {
            let icb = raw(&mut d, kind, extended, 100, &[]);
            let at = (d.volume.start + icb.block) as usize * 2048;
            put32(&mut d.image, at + 2048 - room as usize - 8, attributes);
            put32(&mut d.image, at + 2048 - room as usize - 4, area);
        }
    }
    closed(if extended { "areas to the end, extended" } else { "areas to the end" }, d)
}

fn informations(random: &mut Random, kind: u8) -> Shape {
    let mut d = disc();
    let total = 2048 + 100 + 2049;
    let small = [0, 1, 2047, 2048, 2049, 2147, 2148, 2149, total - 1, total, total + 1];
    let large = [1 << 29, 1 << 31, 1 << 45, 1 << 63, u64::MAX - 1, u64::MAX];
    for information in small.into_iter().chain(large) {
        let layout = Layout { cuts: vec![2048, 100], information: Some(information), ..Layout::of(kind) };
        let bytes = contents(random, total as usize, true);
        d.store(&bytes, &layout);
    }
    for information in [0, 3, u64::MAX] {
        d.store(b"abcde", &Layout { information: Some(information), ..Layout::of(3) });
        d.store(b"", &Layout { information: Some(information), ..Layout::of(kind) });
    }
    closed(&format!("information lengths, kind {kind}"), d)
}

/// Extents of each type and partition, inside the information length, at its end and beyond it.
fn types(random: &mut Random, kind: u8) -> Shape {
    let mut d = disc();
    let at = blocks(&mut d, random, 3);
    for extent_type in 0..4 {
        for number in [NUMBER, NUMBER + 1] {
            for information in [1000, 2048, 2049, 5000] {
                let parts = [(2048, 0, NUMBER), (700, extent_type, number), (900, 0, NUMBER)];
                let area: Vec<u8> =
                    parts.iter().enumerate().flat_map(|(i, (n, t, p))| descriptor(kind, *n, *t, at + i as u32, *p)).collect();
                raw(&mut d, kind, extent_type == 1, information, &area);
            }
        }
    }
    closed(&format!("types, kind {kind}"), d)
}

/// What ends an area: a length of 0 of any type, fewer bytes than a descriptor has, a type 3 with more behind it.
fn ends(random: &mut Random, kind: u8) -> Shape {
    let mut d = disc();
    let at = blocks(&mut d, random, 2);
    let one = |n, t, b| descriptor(kind, n, t, b, NUMBER);
    for extent_type in 0..4 {
        let area = [one(10, 0, at), one(0, extent_type, at), one(20, 0, at + 1)].concat();
        raw(&mut d, kind, false, 1000, &area);
    }
    for left in 0..descriptor_size(kind) {
        let area = [one(10, 0, at), one(20, 1, at + 1)[..left].to_vec()].concat();
        raw(&mut d, kind, false, 1000, &area);
    }
    let header = d.take(1);
    d.put_block(header, &allocation_extent(&one(33, 0, at + 1)));
    raw(&mut d, kind, false, 1000, &[one(10, 0, at), one(2048, 3, header), one(20, 0, at)].concat());
    raw(&mut d, kind, true, 1000, &one(2048, 3, header));
    closed(&format!("ends, kind {kind}"), d)
}

/// Chains of many lengths around the limit of 32 continuations.
fn chains(random: &mut Random, kind: u8) -> Shape {
    let mut d = disc();
    for hops in [0, 1, 2, 31, 32, 33, 34] {
        let bytes = contents(random, 40 * (hops + 1), true);
        let layout = Layout { cuts: vec![40; hops], per_area: 1, slack: (hops % 3) as u32 * 2048, ..Layout::of(kind) };
        d.store(&bytes, &layout);
    }
    // A bad extent at the end of the longest chain, inside the information length and beyond it.
    for information in [80, 4000] {
        let behind = vec![descriptor(kind, 50, 1, 0, NUMBER)];
        let layout = Layout { cuts: vec![40], per_area: 1, behind, information: Some(information), ..Layout::of(kind) };
        d.store(&[7; 80], &layout);
    }
    closed(&format!("chains, kind {kind}"), d)
}

/// A chain that comes back to itself, with and without an extent on the way.
fn loops(random: &mut Random, kind: u8) -> Shape {
    let mut d = disc();
    let at = blocks(&mut d, random, 1);
    for extents in 0..3 {
        let header = d.take(1);
        let mut area = descriptor(kind, 5, 0, at, NUMBER).repeat(extents);
        area.extend(descriptor(kind, 2048, 3, header, NUMBER));
        d.put_block(header, &allocation_extent(&area));
        raw(&mut d, kind, false, 11, &area);
    }
    closed(&format!("loops, kind {kind}"), d)
}

/// Continuations of many lengths, with headers that don't fit them, and in another partition.
fn continuations(random: &mut Random, kind: u8) -> Shape {
    let mut d = disc();
    let at = blocks(&mut d, random, 1);
    let area = descriptor(kind, 60, 0, at, NUMBER);
    let header = d.take(2);
    d.put_block(header, &allocation_extent(&area));
    let whole = 24 + area.len() as u32;
    for n in [1, 15, 23, 24, 25, whole - 1, whole, whole + 1, 2047, 2048, 2049, 4096, 1_048_577, 0x3fff_ffff] {
        raw(&mut d, kind, false, 60, &descriptor(kind, n, 3, header, NUMBER));
    }
    raw(&mut d, kind, false, 60, &descriptor(kind, 2048, 3, header, NUMBER + 1));
    raw(&mut d, kind, false, 60, &descriptor(kind, 23, 3, header, NUMBER + 1));
    raw(&mut d, kind, false, 60, &descriptor(kind, 1_048_577, 3, header, NUMBER + 1));
    raw(&mut d, kind, false, 60, &descriptor(kind, 2048, 3, 1 << 20, NUMBER));
    raw(&mut d, kind, false, 60, &descriptor(kind, 2048, 3, u32::MAX, NUMBER));
    for (offset, v) in [(0, 3u8), (0, 0), (4, 0x55), (5, 1), (20, 0xff), (22, 1)] {
        let block = d.take(1);
        let mut bytes = allocation_extent(&area);
        bytes[offset] = v;
        if offset != 4 {
            mend(&mut bytes);
        }
        d.put_block(block, &bytes);
        raw(&mut d, kind, true, 60, &descriptor(kind, 2048, 3, block, NUMBER));
    }
    closed(&format!("continuations, kind {kind}"), d)
}

/// Extents that end with the image, and that run beyond it.
fn off_the_image(random: &mut Random, kind: u8) -> Shape {
    let mut d = disc();
    let at = blocks(&mut d, random, 1);
    // The root and the file set come behind these entries, and then the image ends.
    for (i, n) in [2048u32, 2049, 6 * 2048, 300 * 2048, 0x3fff_ffff].iter().enumerate() {
        for information in [10, 2048, 2049, 1 << 29] {
            let area = [descriptor(kind, 100, 0, at, NUMBER), descriptor(kind, *n, 0, at + i as u32 * 40, NUMBER)].concat();
            raw(&mut d, kind, false, information, &area);
        }
    }
    for block in [190, 215, 216, 217, 5000, u32::MAX] {
        raw(&mut d, kind, false, 5000, &descriptor(kind, 3000, 0, block, NUMBER));
    }
    closed(&format!("off the image, kind {kind}"), d)
}

/// ext_ads whose three lengths differ.
fn exts(random: &mut Random) -> Shape {
    let mut d = disc();
    let at = blocks(&mut d, random, 4);
    let odd = [
        (100, 100, 100),
        (100, 2000, 2000),
        (2000, 100, 100),
        (100, 100, 101),
        (100, 99, 100),
        (0, 100, 100),
        (100, 0, 0),
        (100, 0xc000_0064, 100),
        (100, 0xc000_0064, 0xc000_0064),
        (100, 0x4000_0000, 0),
        (4096, 4097, 4097),
    ];
    for (stored, recorded, information) in odd {
        let area =
            [ext_ad(50, 50, 50, at, NUMBER), ext_ad(stored, recorded, information, at + 1, NUMBER), ext_ad(30, 30, 30, at + 3, NUMBER)];
        raw(&mut d, 2, false, 60, &area.concat());
        raw(&mut d, 2, true, 5000, &area.concat());
    }
    // A continuation's lengths aren't compared.
    let mut on = ext_ad(2048, 1, 2, at, NUMBER);
    on[3] |= 0xc0;
    raw(&mut d, 2, false, 60, &on);
    closed("ext_ads", d)
}

/// What stands where an entry should be, and ICBs of every kind.
fn entries(random: &mut Random) -> Shape {
    let mut d = disc();
    let bytes = contents(random, 300, true);
    let (good, _) = d.store(&bytes, &Layout::of(1));
    for odd in [
        Icb { length: 0, ..good },
        Icb { length: 1, ..good },
        Icb { length: 0x3fff_ffff, extent_type: 3, ..good },
        Icb { partition: 9, ..good },
        Icb { extent_type: 1, implementation_use: [1, 2, 3, 4, 5, 6], ..good },
        Icb { block: 1 << 20, ..good },
        Icb { block: u32::MAX, ..good },
        Icb { length: 0, block: u32::MAX, ..good },
    ] {
        d.icbs.push(odd);
    }
    for id in [0u16, 1, 8, 256, 257, 258, 259, 260, 262, 263, 264, 265, 267] {
        let block = d.take(1);
        d.put_block(block, &tagged(id, 300));
        d.icbs.push(Icb::at(block, NUMBER));
    }
    for at in [4, 5] {
        let block = d.take(1);
        let mut bytes = Entry { extended: false, flags: 3, information: 5, attributes: 0, area: b"hello" }.bytes();
        bytes[at] ^= 1;
        d.put_block(block, &bytes);
        d.icbs.push(Icb::at(block, NUMBER));
    }
    closed("entries", d)
}

/// The longest continuation that is followed: 512 blocks.
fn long_continuations() -> Shape {
    let mut d = disc();
    let at = d.take(1);
    let area: Vec<u8> = descriptor(0, 7, 0, at, NUMBER).repeat(600);
    let header = d.take(513);
    d.put_block(header, &allocation_extent(&area));
    d.put(d.volume.start as u64 + header as u64 + 512, &[0; 2048]);
    for n in [1_048_575, 1_048_576, 1_048_577] {
        raw(&mut d, 0, false, 1 << 20, &descriptor(0, n, 3, header, NUMBER));
    }
    closed("the longest continuation", d)
}
