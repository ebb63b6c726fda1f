//! Images with partition maps: each refusal of the table, of a map and of a reference in turn, and files that go from one partition to another.
//! They aren't in the list that is kept.

use super::calls::Icb;
use super::disc::{Disc, Layout};
use super::records::*;
use super::shapes_opening::Shape;

const STARTS: [u32; 2] = [60, 120];
const NUMBERS: [u16; 2] = [5, 9];

/// A block of each partition with an entry in it, by what stands in it.
fn entry(d: &mut Disc, reference: u16, kind: u8, area: &[u8], information: u64) -> Icb {
    d.stand_in(STARTS[usize::from(reference)], reference);
    let block = d.take(1);
    d.put_block(block, &Entry { extended: false, flags: kind.into(), information, attributes: 0, area }.bytes());
    let icb = Icb::at(block, reference);
    d.icbs.push(icb);
    icb
}

/// A block of a partition with bytes of its own.
fn data(d: &mut Disc, reference: u16, byte: u8) -> u32 {
    d.stand_in(STARTS[usize::from(reference)], reference);
    let block = d.take(2);
    d.put(u64::from(STARTS[usize::from(reference)]) + u64::from(block), &[byte; 4096]);
    block
}

/// Files of each kind over both partitions, with references that there are maps for and that there are none for.
fn files(d: &mut Disc) -> Vec<Item> {
    let mut items = Vec::new();
    let mut named = |d: &mut Disc, name: String, icb| {
        d.path(name.as_bytes());
        items.push(Item::new(name8(name.as_bytes()), icb, 0));
    };
    for home in 0..2 {
        let embedded = entry(d, home, 3, b"embedded", 8);
        named(d, format!("embedded {home}"), embedded);
        for kind in 0..3 {
            let near = data(d, home, b'n');
            let far = data(d, 1 - home, b'f');
            // By references to its own partition, to the other, to none that there is, and to the partitions' numbers.
            for reference in [0, 1, 2, 3, 4, 5, 9, 65535] {
                let block = if reference == home { near } else { far };
                let area = [descriptor(kind, 2100, 0, near, home), descriptor(kind, 2100, 0, block, reference)].concat();
                for information in [2000, 4200] {
                    let icb = entry(d, home, kind, &area, information);
                    named(d, format!("{home} {kind} {reference} {information}"), icb);
                }
                let at = if reference == 1 - home { reference } else { home };
                d.stand_in(STARTS[usize::from(at)], at);
                let header = d.take(1);
                d.put_block(header, &allocation_extent(&descriptor(kind, 60, 0, block, reference)));
                let area = [descriptor(kind, 2100, 0, near, home), descriptor(kind, 60, 3, header, reference)].concat();
                let icb = entry(d, home, kind, &area, 2160);
                named(d, format!("chain {home} {kind} {reference}"), icb);
            }
        }
    }
    // ICBs by references that there are maps for and that there are none for, also where they have no length.
    for reference in [0, 1, 2, 4, 9, 65535] {
        for length in [2048, 0] {
            let icb = Icb { partition: reference, length, ..d.icbs[0] };
            d.icbs.push(icb);
            named(d, format!("icb {reference} {length}"), icb);
        }
    }
    items
}

/// A file that stands in both partitions, for discs that are about something else.
fn file(d: &mut Disc) -> Vec<Item> {
    let (near, far) = (data(d, 0, b'n'), data(d, 1, b'f'));
    let area = [descriptor(1, 2100, 0, near, 0), descriptor(1, 2100, 0, far, 1)].concat();
    let icb = entry(d, 1, 1, &area, 4200);
    d.path(b"both");
    vec![Item::new(name8(b"both"), icb, 0)]
}

/// A disc with two partitions, and in its sequence a logical volume descriptor with a table.
fn disc(file_set_in: u16, change: impl FnOnce(&mut Vec<Vec<u8>>)) -> Disc {
    holding(file, file_set_in, change)
}

fn holding(files: fn(&mut Disc) -> Vec<Item>, file_set_in: u16, change: impl FnOnce(&mut Vec<Vec<u8>>)) -> Disc {
    let mut d = Disc::new(STARTS[0], 0);
    let items = files(&mut d);
    d.stand_in(STARTS[0], 0);
    let root = d.store_directory(&items, &[], &Layout::of(1));
    d.stand_in(STARTS[usize::from(file_set_in)], file_set_in);
    d.recognise(&[b"BEA01", b"NSR03", b"TEA01"]);
    let file_set = d.put_file_set(root);
    let table = [map(1, NUMBERS[0]), map(2, NUMBERS[1])].concat();
    let logical = mapped(logical(&field(&name8(b"volume"), 128), 2048, file_set), 2, &table);
    let partitions = [0, 1].map(|i| partition(NUMBERS[i], STARTS[i], 1000));
    let mut sequence = vec![primary(&field(&name8(b"MAPS"), 32)), logical];
    sequence.extend(partitions);
    change(&mut sequence);
    sequence.push(tagged(8, 512));
    d.sequence(20, &sequence, 0);
    (d.volume.maps, d.volume.numbers, d.volume.starts) = (2, [5, 9, 0, 0], [STARTS[0], STARTS[1], 0, 0]);
    d
}

/// The same with a table of its own.
fn with_table(maps: u32, length: u32, table: &[u8]) -> Disc {
    disc(0, |s| {
        s[1] = mapped(std::mem::take(&mut s[1]), maps, table);
        put32(&mut s[1], 264, length);
    })
}

pub fn shapes() -> Vec<Shape> {
    let mut all = Vec::new();
    let mut add = |name: &str, d: Disc| all.push((format!("maps: {name}"), d));
    for file_set_in in 0..2 {
        add(&format!("a file set in {file_set_in}"), holding(files, file_set_in, |_| {}));
    }
    let five: Vec<u8> = [map(1, 5), map(1, 9), map(1, 5), map(1, 9), map(1, 5)].concat();
    for maps in [0, 1, 2, 3, 4, 5, 6, 1 << 31, u32::MAX] {
        for length in [0, 5, 6, 7, 11, 12, 17, 18, 23, 24, 30, 1607, 1608, 1609, 2048, u32::MAX - 439, u32::MAX] {
            add(&format!("{maps} in {length} bytes"), with_table(maps, length, &five));
        }
    }
    for place in 0..4 {
        for (what, bytes) in
            [("of type 0", [0, 6]), ("of type 2", [2, 6]), ("of type 2, long", [2, 64]), ("short", [1, 5]), ("long", [1, 7])]
        {
            let mut table = five[..24].to_vec();
            table[6 * place..6 * place + 2].copy_from_slice(&bytes);
            // Read, and behind those that are.
            add(&format!("the map {place} {what}"), with_table(4, 24, &table));
            add(&format!("the map {place} {what}, not counted"), with_table(place as u32, 24, &table));
        }
        let mut table = five[..24].to_vec();
        put16(&mut table, 6 * place + 4, 6);
        add(&format!("the map {place} of no partition"), with_table(4, 24, &table));
    }
    for reference in [2, 3, 4, 5, 9, 65535] {
        add(&format!("a file set by reference {reference}"), disc(0, |s| put16(&mut s[1], 256, reference)));
    }
    // Of several descriptors of one number one counts, by its place or by its number.
    for numbers in [[4, 5], [5, 4], [4, 4]] {
        for (good, of) in [(0, 0), (1, 0), (0, 1), (1, 1)] {
            add(
                &format!("partition {of} twice {numbers:?}, {good}"),
                disc(0, |s| {
                    let usual = s.remove(2 + of);
                    let other = |i: usize| {
                        let mut one = usual.clone();
                        put32(&mut one, 16, numbers[i]);
                        put32(&mut one, 188, STARTS[of] + (i != good) as u32);
                        one
                    };
                    s.extend([other(0), other(1)]);
                }),
            );
        }
    }
    // The checks in their order: what is missing, the block size, the table, the maps, the reference.
    for (name, kind) in [("no label", 0), ("no logical volume", 1)] {
        add(name, disc(0, |s| drop(s.remove(kind))));
    }
    add("no partition", disc(0, |s| s.truncate(2)));
    add(
        "no partition, and five maps",
        disc(0, |s| {
            s.truncate(2);
            put32(&mut s[1], 268, 5);
        }),
    );
    add(
        "another block size, and a short table",
        disc(0, |s| {
            put32(&mut s[1], 212, 512);
            put32(&mut s[1], 264, 1);
        }),
    );
    add("a short table of a map of another form", with_table(2, 11, &[2; 12]));
    all
}
