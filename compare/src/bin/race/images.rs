//! The images, each with the one place in it that is flipped: a field of the subject's entry, of its descriptors, of its bytes, or of the
//! volume.

use crate::stage::*;
use common::disc::ANCHOR;
use common::records::*;

pub fn all() -> Vec<Raced> {
    let groups = [lengths, types_and_blocks, areas, continuations, entries, directories, openings, bodies];
    groups.iter().flat_map(|make| make()).collect()
}

/// An extent's length.
fn lengths() -> Vec<Raced> {
    let mut all = Vec::new();
    // Behind twenty cues the file goes on, or ends: in each kind of descriptor. An ext_ad has its length twice, and is of one cue then.
    let one_cue = CUE as u64 | (CUE as u64) << 32;
    for (name, kind, n, offset, width, other) in [
        ("a short_ad's length, 480,000 or the end", 0, 10_000, 0, 4, 0),
        ("a long_ad's length, 48,000 or the end", 1, 1_000, 0, 4, 0),
        ("an ext_ad's recorded and information length, 48,000 or 48", 2, 1_000, 4, 8, one_cue),
    ] {
        let mut s = Stage::new();
        let (few, more) = (s.lay_cues(20), s.lay_cues(n));
        let area = [(20, few), (n, more)].map(|(n, block)| descriptor(kind, (n * CUE) as u32, 0, block, 0)).concat();
        let subject = s.entry(kind, &area, ENDLESS);
        all.push(s.flipped(name, subject, (subject, AREA + descriptor_size(kind) + offset), width, other));
    }
    // The first extent of many: measuring takes long, and so there is much time between two looks.
    for (name, n) in [("the first of 231 extents' length, 48 or 48,000", 230), ("the first of 6,001 extents' length, 48 or 48,000", 6_000)]
    {
        let mut s = Stage::new();
        let first = s.lay_cues(1_000);
        let behind = s.many(n);
        let behind = if n < 232 { behind } else { leads(24 + behind.len(), s.lay(&allocation_extent(&behind))) };
        let subject = s.entry(0, &[short(CUE, first), behind].concat(), ENDLESS);
        all.push(s.flipped(name, subject, (subject, AREA), 4, 1_000 * CUE as u64));
    }
    let mut s = Stage::new();
    let first = s.lay_cues(1);
    let subject = s.entry(0, &short(CUE, first), ENDLESS);
    all.push(s.flipped("an extent's length, 48 or beyond the image", subject, (subject, AREA), 4, BEYOND));
    all
}

/// An extent's type and its block.
fn types_and_blocks() -> Vec<Raced> {
    let two = |s: &mut Stage| {
        let (few, more) = (s.lay_cues(20), s.lay_cues(1_000));
        s.entry(0, &[short(1_000 * CUE, more), short(20 * CUE, few)].concat(), ENDLESS)
    };
    let mut s = Stage::new();
    let subject = two(&mut s);
    let unrecorded = s.flipped("an extent's type, recorded or not", subject, (subject, AREA), 4, (1 << 30) | (1_000 * CUE as u64));
    let mut s = Stage::new();
    let subject = two(&mut s);
    let nowhere = s.flipped("an extent's block, inside the image or not", subject, (subject, AREA + 4), 4, NOWHERE);
    let mut s = Stage::new();
    let (few, area) = (s.lay_cues(20), s.many(200));
    let further = s.lay(&allocation_extent(&area));
    let subject = s.entry(0, &[short(20 * CUE, few), short(2048, further)].concat(), ENDLESS);
    let continued = s.flipped("an extent's type, bytes or a continuation", subject, (subject, AREA + 8), 4, 3 << 30 | 2048);
    vec![unrecorded, nowhere, continued]
}

/// An area's length, and what stands in front of it.
fn areas() -> Vec<Raced> {
    let mut all = Vec::new();
    for (name, other) in [
        ("an area's length in the entry, 230 descriptors or one", 8),
        ("an area's length in the entry, inside the sector or beyond it", 2_000),
    ] {
        let mut s = Stage::new();
        let area = s.many(230);
        let subject = s.entry(0, &area, ENDLESS);
        all.push(s.flipped(name, subject, (subject, AREA - 4), 4, other));
    }
    for (name, other) in [
        ("an area's length in a continuation's header, 250 descriptors or one", 8),
        ("an area's length in a continuation's header, inside its sector or beyond the image", 0xffff_fff0),
    ] {
        let mut s = Stage::new();
        let area = s.many(250);
        let further = s.lay(&allocation_extent(&area));
        let subject = s.entry(0, &leads(2048, further), ENDLESS);
        all.push(s.flipped(name, subject, (further, 20), 4, other));
    }
    let mut s = Stage::new();
    let area = s.cues(38);
    let subject = s.entry(3, &area, ENDLESS);
    all.push(s.flipped("an embedded file's area length, 1,824 or 48", subject, (subject, AREA - 4), 4, CUE as u64));
    for (name, kind, other) in [
        ("the attributes' length, 0 or a descriptor's", 0, 8),
        ("the attributes' length, 0 or beyond the image", 0, 0xffff_fff8),
        ("the attributes' length in front of an embedded file, 0 or 900", 3, 900),
    ] {
        let mut s = Stage::new();
        let area = if kind == 0 { s.many(20) } else { s.cues(20) };
        let subject = s.entry(kind, &area, ENDLESS);
        all.push(s.flipped(name, subject, (subject, AREA - 8), 4, other));
    }
    all
}

/// A continuation: its length and its block.
fn continuations() -> Vec<Raced> {
    let mut all = Vec::new();
    for (name, length) in [
        ("a continuation's length, 2,048 or the end", 0),
        ("a continuation's length, 2,048 or too short", 20),
        ("a continuation's length, 2,048 or too long", BEYOND),
    ] {
        let mut s = Stage::new();
        let (few, area) = (s.lay_cues(20), s.many(200));
        let further = s.lay(&allocation_extent(&area));
        let subject = s.entry(0, &[short(20 * CUE, few), leads(2048, further)].concat(), ENDLESS);
        all.push(s.flipped(name, subject, (subject, AREA + 8), 4, 3 << 30 | length));
    }
    let mut s = Stage::new();
    let (few, many) = (s.many(1), s.many(5_000));
    let (few, many) = (s.lay(&allocation_extent(&few)), s.lay(&allocation_extent(&many)));
    let subject = s.entry(0, &leads(24 + 5_000 * 8, few), ENDLESS);
    all.push(s.flipped("a continuation's block, of few extents or many", subject, (subject, AREA + 4), 4, many.into()));
    let mut s = Stage::new();
    let area = s.many(200);
    let further = s.lay(&allocation_extent(&area));
    let subject = s.entry(0, &leads(2048, further), ENDLESS);
    all.push(s.flipped("a continuation's block, inside the image or not", subject, (subject, AREA + 4), 4, NOWHERE));
    // An area that leads on to an end, or to itself, 32 times over.
    let mut s = Stage::new();
    let (end, area) = (s.lay(&allocation_extent(&[])), s.many(100));
    let block = s.disc.take(1);
    s.disc.put_block(block, &allocation_extent(&[area, leads(2048, end)].concat()));
    let subject = s.entry(0, &leads(2048, block), ENDLESS);
    all.push(s.flipped("a continuation's block, another or its own", subject, (block, 24 + 800 + 4), 4, block.into()));
    all
}

/// The other fields of an entry.
fn entries() -> Vec<Raced> {
    let mut all = Vec::new();
    for (name, kind, other) in [
        ("an information length, 1,824 or 48", 0, CUE as u64),
        ("an information length, 1,824 or 2^64 - 1", 0, u64::MAX),
        ("an embedded file's information length, 1,824 or 48", 3, CUE as u64),
    ] {
        let mut s = Stage::new();
        let area = if kind == 3 { s.cues(38) } else { short(1_000 * CUE, s.lay_cues(1_000)) };
        let subject = s.entry(kind, &area, 38 * CUE as u64);
        all.push(s.flipped(name, subject, (subject, 56), 8, other));
    }
    for (name, kind, other) in [
        ("an area's kind, short_ads or embedded", 0, 3),
        ("an area's kind, short_ads or ext_ads", 0, 2),
        ("an area's kind, long_ads or none that there is", 1, 6),
    ] {
        let mut s = Stage::new();
        let block = s.lay_cues(100);
        let area = descriptor(kind, 100 * CUE as u32, 0, block, 0).repeat(10);
        let subject = s.entry(kind, &area, ENDLESS);
        all.push(s.flipped(name, subject, (subject, 34), 2, other));
    }
    // A plain entry or an extended one: the tag's first eight bytes, with the checksum. The fifth descriptor of the plain one ends its area,
    // and has the lengths of the other's attributes and area.
    let mut s = Stage::new();
    let extents = s.many(5);
    let area = [&extents[..32], &[0; 4], &(extents.len() as u32).to_le_bytes(), &extents].concat();
    let subject = s.entry(0, &area, ENDLESS);
    let other = u64::from_le_bytes(*tagged(266, 16).first_chunk().unwrap());
    all.push(s.flipped("an entry's tag, plain or extended", subject, (subject, 0), 8, other));
    all
}

/// The entries of a directory that stands in an extent, and of one that is embedded.
fn directories() -> Vec<Raced> {
    let mut all = Vec::new();
    for (name, at, width, other) in [
        ("a name's length, 10 or an entry more", 19, 1, 58),
        ("a name's length, 10 or 255", 19, 1, 255),
        ("the implementation use's length, 0 or ten entries'", 36, 2, 480),
        ("the implementation use's length, 0 or FFFF", 36, 2, 0xffff),
        ("an entry's characteristics, deleted or not", 18, 1, 4),
        ("a name's compression id, 8 or 16", 38, 1, 16),
        ("the block of an entry's ICB, inside the image or not", 24, 4, NOWHERE),
    ] {
        let mut s = Stage::new();
        let block = s.lay_cues(40);
        let subject = s.entry(0, &short(40 * CUE, block), ENDLESS);
        all.push(s.flipped(name, subject, (block, 5 * CUE + at), width, other));
        let mut s = Stage::new();
        let area = s.cues(30);
        let subject = s.entry(3, &area, ENDLESS);
        all.push(s.flipped(&format!("{name}, in an embedded directory"), subject, (subject, AREA + 5 * CUE + at), width, other));
    }
    all
}

/// A CRC's length, and a byte that it is of: of an entry, a continuation's header, an entry of a directory, and the anchor. Every other body of
/// these images is right.
fn bodies() -> Vec<Raced> {
    let mut all = Vec::new();
    for (i, (of, byte)) in
        [("an entry", 40), ("a continuation's header", 16), ("a directory's entry", 16), ("the anchor", 40)].into_iter().enumerate()
    {
        for is_length in [true, false] {
            let mut s = Stage::new();
            let area = s.many(100);
            let (further, cues) = (s.lay(&allocation_extent(&area)), s.lay_cues(1));
            let subject = s.entry(0, &[short(CUE, cues), leads(2048, further)].concat(), ENDLESS);
            let tag = [s.at(subject, 0), s.at(further, 0), s.at(cues, 0), ANCHOR as usize * 2048][i];
            all.push(match is_length {
                true => s.sealed_length(&format!("the CRC length of {of}, its own or too long"), subject, tag),
                false => s.sealed(&format!("the body of {of}, right or not"), subject, tag + byte, 1, 0x77),
            });
        }
    }
    all
}

/// The volume's own descriptors: recognition in 16 to 18, the main sequence in 32 to 35, the anchor.
fn openings() -> Vec<Raced> {
    let sector = |number: usize, offset: usize| number * 2048 + offset;
    let other_id = u64::from_le_bytes(*tagged(3, 16).first_chunk().unwrap());
    let places = [
        ("a recognition sector's id, known or not", sector(17, 1), 1, b'X'.into()),
        ("the main sequence's length, four sectors or two", sector(ANCHOR as usize, 16), 4, 2 * 2048),
        ("the main sequence's length, four sectors or beyond the image", sector(ANCHOR as usize, 16), 4, 0xffff_ffff),
        ("the main sequence's place, inside the image or not", sector(ANCHOR as usize, 20), 4, NOWHERE),
        ("the label's length, 21 or 5", sector(32, 55), 1, 5),
        ("the label's length, 21 or 255", sector(32, 55), 1, 255),
        ("the label's compression id, 8 or 16", sector(32, 24), 1, 16),
        ("the primary volume descriptor's tag, its own or another", sector(32, 0), 8, other_id),
        ("the logical volume's label, good or not", sector(33, 211), 1, 128),
        ("the block size, 2,048 or 512", sector(33, 212), 4, 512),
        ("the partition's start, inside the image or not", sector(34, 188), 4, NOWHERE),
    ];
    let mut all = Vec::new();
    for (name, at, width, other) in places {
        let mut s = Stage::new();
        let block = s.lay_cues(40);
        let subject = s.entry(0, &short(40 * CUE, block), ENDLESS);
        all.push(s.flipped_at(name, subject, at, width, other));
    }
    all
}
