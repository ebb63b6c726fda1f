//! What is asked of an image: every call, on many paths and ICBs, with memory enough, exactly enough and too little.

use super::calls::{Call, Icb, PLACE, PLENTY, Query, Volume};
use super::compare::Asked;
use super::disc::Disc;
use super::expect::{Expected, expected};
use super::original;
use super::prevailing;
use super::random::Random;
use super::surveys;
use crate::udf::within;
use strandlodge_sys::vault::{AS_WRITTEN, CASE_IGNORED, CHECKED, HIGHEST, MAPS, OVER_BUDGET, UNAMBIGUOUS, UNLIMITED};

pub struct Case {
    pub query: Query,
    pub expected: Expected,
    /// Asked on an image that has noise in every sector but those that the original asked for.
    pub in_noise: bool,
}

/// How much is asked: all that is known of an image, or some of it.
#[derive(Clone, Copy, PartialEq)]
pub enum Depth {
    All,
    Some,
}

/// The volume that calls are made on: the opened one, the one that was meant, or once in a while one made by hand.
fn volume(random: &mut Random, disc: &Disc, depth: Depth) -> Volume {
    let mut v = match within::asked(|| original::open(&disc.image)).0.value {
        Ok((v, _)) => v,
        Err(_) => disc.volume,
    };
    if depth == Depth::Some && random.once_in(12) {
        match random.below(4) {
            0 => v.start = v.start.wrapping_add(random.below(5) as u32).wrapping_sub(2),
            1 => v.start = random.odd() as u32,
            2 => v.partition ^= 1,
            _ => v.root = odd_icb(random, disc),
        }
    }
    v
}

fn odd_icb(random: &mut Random, disc: &Disc) -> Icb {
    let mut icb = if disc.icbs.is_empty() { disc.volume.root } else { *random.pick(&disc.icbs) };
    match random.below(5) {
        0 => icb.length = random.odd() as u32 & 0x3fff_ffff,
        1 => icb.block = random.below(disc.image.len() / 2048 + 2) as u32,
        2 => icb.block = random.odd() as u32,
        3 => icb.extent_type = random.below(4) as u8,
        _ => icb.partition = random.next() as u16,
    }
    icb
}

/// A path near one that is there.
fn near(random: &mut Random, path: &[u8]) -> Vec<u8> {
    let mut p = path.to_vec();
    match random.below(10) {
        0 => p.iter_mut().for_each(|b| *b = b.to_ascii_uppercase()),
        1 => p.iter_mut().for_each(|b| {
            if b.is_ascii_alphabetic() {
                *b ^= 0x20
            }
        }),
        2 => p.insert(random.below(p.len() + 1), b'/'),
        3 => p.extend(b"/more"),
        4 => p = [b"/", &p[..], b"//"].concat(),
        5 => p.truncate(random.below(p.len() + 1)),
        6 => p.insert(random.below(p.len() + 1), 0xff),
        7 if !p.is_empty() => {
            let at = random.below(p.len());
            p[at] ^= 0x20;
        }
        8 if !p.is_empty() => {
            let at = random.below(p.len());
            p[at] = random.next() as u8;
        }
        _ => p.extend(random.bytes(3)),
    }
    p
}

fn paths(random: &mut Random, disc: &Disc, depth: Depth) -> Vec<Vec<u8>> {
    let mut all = vec![Vec::new()];
    match depth {
        Depth::All => all.extend(disc.paths.iter().cloned()),
        Depth::Some => all.extend((0..4.min(disc.paths.len())).map(|_| random.pick(&disc.paths).clone())),
    }
    for i in 0..all.len().min(6) {
        let near = near(random, &all[i]);
        all.push(near);
    }
    all
}

fn icbs(random: &mut Random, disc: &Disc, v: Volume, depth: Depth) -> Vec<Icb> {
    let mut all = vec![v.root];
    match depth {
        Depth::All => all.extend(&disc.icbs),
        Depth::Some => all.extend((0..5.min(disc.icbs.len())).map(|_| *random.pick(&disc.icbs))),
    }
    all.push(odd_icb(random, disc));
    all
}

/// Every query on an image, with memory to spare.
fn plain(random: &mut Random, disc: &Disc, depth: Depth) -> Vec<Query> {
    let v = volume(random, disc, depth);
    let mut all: Vec<Query> = [Call::Probe, Call::Open, Call::Label].map(|c| Query::of(c, Volume::default())).to_vec();
    for path in paths(random, disc, depth) {
        all.extend([Call::Lookup, Call::Failed, Call::ReadPath].map(|c| Query::along(c, v, &path)));
    }
    for icb in icbs(random, disc, v, depth) {
        all.extend([Call::List, Call::Read, Call::Part, Call::Extents].map(|c| Query::on(c, v, icb)));
    }
    all
}

/// Sizes of output and work space around what the answer takes. The first has more than enough.
fn sizes(random: &mut Random, q: &Query, e: &Expected, depth: Depth) -> Vec<(usize, usize)> {
    let most = e.directories.iter().copied().max().unwrap_or(0);
    let (room, work) = (e.full + random.below(80), most + random.below(80));
    let mut all = vec![(room, work)];
    if q.call.has_room() && e.values.answer == 0 {
        all.push((e.full, most));
        all.push((e.full.saturating_sub(1), work));
    }
    if q.call.has_work() && !e.directories.is_empty() {
        // Work space for each directory on the path, and a byte less.
        all.extend(e.directories.iter().flat_map(|d| [(room, *d), (room, d.saturating_sub(1))]));
        all.push((0, most.saturating_sub(1)));
    }
    if q.call.has_room() | q.call.has_work() {
        all.push((0, 0));
    }
    if depth == Depth::Some {
        let more = all.split_off(1);
        all.extend(more.into_iter().filter(|_| random.once_in(2)));
    }
    let (rooms, works) = (q.call.has_room() as usize, q.call.has_work() as usize);
    all.iter_mut().for_each(|(r, w)| (*r, *w) = (*r * rooms, *w * works));
    all.dedup();
    all
}

/// Opening and the label by the highest numbers, and once in a while by a number with a bit that is of no choice.
pub fn chosen(random: &mut Random, disc: &Disc) -> Vec<Case> {
    let mut all = Vec::new();
    let odd = *random.pick(&[8, 10, 15, 16, HIGHEST | 1 << 31, u32::MAX]);
    let hows = [Some(HIGHEST), random.once_in(4).then_some(odd)];
    for (how, call) in hows.into_iter().flatten().flat_map(|how| [(how, Call::Open), (how, Call::Label)]) {
        let q = Query { how, ..Query::of(call, Volume::default()) };
        let spare = expected(&disc.image, &q);
        for (room, work) in sizes(random, &q, &spare, Depth::All) {
            let query = q.with(room, work);
            all.push(Case { expected: expected(&disc.image, &query), query: query.clone(), in_noise: false });
            all.push(Case { expected: expected(&disc.image, &query), query, in_noise: true });
        }
    }
    all
}

/// The cases of an image under the original's own choice of matching.
pub fn cases(random: &mut Random, disc: &Disc, depth: Depth) -> Vec<Case> {
    let queries = plain(random, disc, depth);
    queries.iter().flat_map(|q| sized(random, disc, q, depth)).collect()
}

/// A query with memory of each size. The first is asked in noise too, and others once in a while.
fn sized(random: &mut Random, disc: &Disc, q: &Query, depth: Depth) -> Vec<Case> {
    let mut all = Vec::new();
    let spare = expected(&disc.image, &q.with(PLENTY, PLENTY));
    for (i, (room, work)) in sizes(random, q, &spare, depth).into_iter().enumerate() {
        let query = q.with(room, work);
        let in_noise = q.call != Call::Probe && (i == 0 || random.once_in(4));
        all.push(Case { expected: expected(&disc.image, &query), query: query.clone(), in_noise: false });
        if in_noise {
            all.push(Case { expected: expected(&disc.image, &query), query, in_noise: true });
        }
    }
    all
}

/// Numbers by which a volume says that bodies are checked.
const SAYS: [u32; 6] = [1, 1, 2, 256, 1 << 31, u32::MAX];

/// The cases with bodies checked: opening and the label by both choices, and every other call on a volume that says so.
pub fn checked(random: &mut Random, disc: &Disc, depth: Depth) -> Vec<Case> {
    let v = Volume { checked: *random.pick(&SAYS), ..volume(random, disc, depth) };
    let mut queries = Vec::new();
    for how in [CHECKED, CHECKED | HIGHEST] {
        queries.extend([Call::Open, Call::Label].map(|call| Query { how, ..Query::of(call, Volume::default()) }));
    }
    for path in paths(random, disc, depth) {
        let matching = *random.pick(&[CASE_IGNORED, CASE_IGNORED, AS_WRITTEN, UNAMBIGUOUS]);
        queries.extend([Call::Lookup, Call::Failed, Call::ReadPath].map(|call| Query::along(call, v, &path).matched(matching)));
    }
    for icb in icbs(random, disc, v, depth) {
        queries.extend([Call::List, Call::Read, Call::Part, Call::Extents].map(|call| Query::on(call, v, icb)));
    }
    queries.iter().flat_map(|q| sized(random, disc, q, depth)).collect()
}

/// The volume that calls through maps are made on: the opened one, the one that was meant, or once in a while one made by hand.
fn mapped_volume(random: &mut Random, disc: &Disc, depth: Depth) -> Volume {
    let by_number = random.once_in(2);
    let mut v = match within::asked(|| prevailing::open_mapped(&disc.image, by_number)).0.value {
        Ok((v, _)) => v,
        Err(_) if disc.volume.maps == 0 => Volume { maps: 1, starts: [disc.volume.start; 4], ..disc.volume },
        Err(_) => disc.volume,
    };
    if depth == Depth::Some && random.once_in(6) {
        match random.below(8) {
            // As many as there are, more than there are, and none: then they aren't looked at.
            0 => v.maps = *random.pick(&[4, 5, 256, 1 << 31, u32::MAX]),
            1 => v.maps = random.below(5) as u32,
            2 => v.starts[random.below(4)] = random.odd() as u32,
            3 => v.starts = std::array::from_fn(|_| *random.pick(&v.starts)),
            // Nothing of these counts beside the maps.
            4 => v.start = random.odd() as u32,
            5 => v.partition = random.next() as u16,
            6 => {
                (v.volumes, v.numbers) =
                    (random.next().to_le_bytes().chunks(2).map(|b| b[0].into()).collect::<Vec<_>>().try_into().unwrap(), [7; 4])
            }
            _ => v.root = mapped_icb(random, disc),
        }
    }
    v
}

/// An ICB of the disc, or an odd one, under another reference once in a while.
fn mapped_icb(random: &mut Random, disc: &Disc) -> Icb {
    Icb { partition: random.below(6) as u16, ..odd_icb(random, disc) }
}

/// The cases through maps: opening and the label by every choice beside, and every other call on a volume that has maps.
pub fn mapped(random: &mut Random, disc: &Disc, depth: Depth) -> Vec<Case> {
    let checked = if random.once_in(3) { *random.pick(&SAYS) } else { 0 };
    let v = Volume { checked, ..mapped_volume(random, disc, depth) };
    let mut queries = Vec::new();
    for how in [0, HIGHEST, CHECKED, CHECKED | HIGHEST].map(|how| how | MAPS) {
        queries.extend([Call::Open, Call::Label].map(|call| Query { how, ..Query::of(call, Volume::default()) }));
    }
    for path in paths(random, disc, depth) {
        let matching = *random.pick(&[CASE_IGNORED, CASE_IGNORED, AS_WRITTEN, UNAMBIGUOUS]);
        queries.extend([Call::Lookup, Call::Failed, Call::ReadPath].map(|call| Query::along(call, v, &path).matched(matching)));
    }
    let mut all = icbs(random, disc, v, depth);
    all.push(mapped_icb(random, disc));
    for icb in all {
        queries.extend([Call::List, Call::Read, Call::Part, Call::Extents].map(|call| Query::on(call, v, icb)));
    }
    queries.iter().flat_map(|q| sized(random, disc, q, depth)).collect()
}

/// What is asked a sector at a time: the old opening, and reads on a volume as it is asked about.
pub fn stepped(random: &mut Random, disc: &Disc, asked: Asked, depth: Depth) -> Vec<Query> {
    let says = *random.pick(&SAYS);
    let v = match asked {
        Asked::Unchecked => volume(random, disc, depth),
        Asked::Checked => Volume { checked: says, ..volume(random, disc, depth) },
        Asked::Mapped => Volume { checked: if says == 1 { 0 } else { says }, ..mapped_volume(random, disc, depth) },
    };
    let reads = icbs(random, disc, v, depth).into_iter().map(|icb| Query::on(Call::Read, v, icb));
    [Query::of(Call::Open, Volume::default())].into_iter().chain(reads).collect()
}

/// A path with some of its letters in the other case.
fn recased(random: &mut Random, path: &[u8]) -> Vec<u8> {
    let seldom = *random.pick(&[1, 2, 8]);
    path.iter().map(|b| if b.is_ascii_alphabetic() && random.once_in(seldom) { *b ^ 0x20 } else { *b }).collect()
}

/// The cases of the other choices: calls along paths that are there, that nearly are, and in other cases. A number beyond the choices is
/// now and then in the place of the last.
pub fn matched(random: &mut Random, disc: &Disc, depth: Depth) -> Vec<Case> {
    let v = volume(random, disc, depth);
    let mut along = paths(random, disc, depth);
    for i in 1..along.len() {
        let other = recased(random, &along[i]);
        along.push(other);
    }
    let mut all = Vec::new();
    for path in along {
        let other = if random.once_in(8) { 3 + random.odd() as u32 % (u32::MAX - 2) } else { UNAMBIGUOUS };
        for matching in [AS_WRITTEN, other] {
            let call = *random.pick(&[Call::Lookup, Call::Failed, Call::ReadPath]);
            all.extend(sized(random, disc, &Query::along(call, v, &path).matched(matching), depth));
        }
    }
    all
}

/// Lists of paths, some 10 at most: that are there, that nearly are, and empty ones.
fn lists(random: &mut Random, disc: &Disc, v: Volume, depth: Depth) -> Vec<Query> {
    let known = paths(random, disc, depth);
    let lists = if depth == Depth::All { 3 } else { 1 };
    let mut all = Vec::new();
    for _ in 0..lists {
        let n = *random.pick(&[1, 1, 2, 3, 4, 5, 6, 7, 10]);
        let empty = *random.pick(&[1, 6, 6, 6, 100]);
        let list: Vec<Vec<u8>> = (0..n).map(|_| if random.once_in(empty) { Vec::new() } else { random.pick(&known).clone() }).collect();
        let other = if random.once_in(8) { 3 + random.odd() as u32 % (u32::MAX - 2) } else { UNAMBIGUOUS };
        let matching = *random.pick(&[CASE_IGNORED, CASE_IGNORED, AS_WRITTEN, other]);
        all.push(Query::list(v, &list).matched(matching));
    }
    all
}

/// A list with memory to spare, exactly enough and short: the output for the last path, for one in front of it and for any; the work space for a
/// directory on the way; and the rows.
fn stacks(random: &mut Random, q: &Query, e: &Expected, depth: Depth) -> Vec<Query> {
    let (most, n) = (e.directories.iter().copied().max().unwrap_or(0), q.places[0]);
    let spare = Query { places: [n + random.below(4), n + random.below(4)], ..q.with(e.full + random.below(80), most + random.below(80)) };
    // The end of a path's bytes, where each one's follow those before it.
    let front = random.between(0, n + 1);
    let ends: usize = e.values.rows.iter().take(front).map(|(length, _)| *length as usize).sum();
    let short = if e.directories.is_empty() { 0 } else { random.pick(&e.directories).saturating_sub(1) };
    let any = [random.below(n), n + random.below(3)];
    let rows = *random.pick(&[[n - 1, n], [n, n - 1], [n - 1, n - 1], [0, n + 1], [n + 1, 0], [0, 0], any]);
    let room = random.below(e.full + 1);
    let mut all = vec![
        q.with(e.full, most),
        q.with(e.full.saturating_sub(1), most),
        q.with(ends, most),
        q.with(ends.saturating_sub(1), most),
        q.with(room, most),
        q.with(e.full, short),
        q.with(ends, short),
        q.with(0, 0),
        Query { places: rows, ..spare.clone() },
    ];
    if depth == Depth::Some {
        all.retain(|_| random.once_in(3));
    }
    all.insert(0, spare);
    all
}

/// The cases of lists of paths, on a volume that says whether bodies are checked and which maps there are. The first of each list is asked in noise
/// too, and others once in a while.
pub fn stacked(random: &mut Random, disc: &Disc, asked: Asked, depth: Depth) -> Vec<Case> {
    let v = match asked {
        Asked::Unchecked => volume(random, disc, depth),
        Asked::Checked => Volume { checked: *random.pick(&SAYS), ..volume(random, disc, depth) },
        Asked::Mapped => Volume { checked: u32::from(random.once_in(2)), ..mapped_volume(random, disc, depth) },
    };
    let mut all = Vec::new();
    for q in lists(random, disc, v, depth) {
        let spare = expected(&disc.image, &q.with(PLENTY, PLENTY));
        for (i, query) in stacks(random, &q, &spare, depth).into_iter().enumerate() {
            let in_noise = i == 0 || random.once_in(4);
            all.push(Case { expected: expected(&disc.image, &query), query: query.clone(), in_noise: false });
            if in_noise {
                all.push(Case { expected: expected(&disc.image, &query), query, in_noise: true });
            }
        }
    }
    all
}

/// A number of levels: any, but fewer where a directory holds itself, or has many names, and there would be too many paths.
fn levels(random: &mut Random, disc: &Disc, v: Volume) -> u32 {
    let wanted = match random.below(8) {
        0 => *random.pick(&[0, 17, 18, 255, 256, 257, 272, 1 << 31, u32::MAX]),
        1 | 2 => 16,
        _ => 1 + random.below(16) as u32,
    };
    if wanted > 16 {
        return wanted;
    }
    let is_much = |levels: &u32| expected(&disc.image, &Query::showing(v, *levels)).directories.len() > 60;
    [3, 6, 10].into_iter().take_while(|fewer| *fewer < wanted).find(is_much).unwrap_or(wanted)
}

/// So many sectors are walked of an image that would take long.
const WALKED: u64 = 400;

/// Sectors that are lent, where as many are on the list: mostly no budget, or exactly enough, one fewer, any, or more than any list has. Where the list is too long to
/// be walked there is a budget each time.
fn budget(random: &mut Random, listed: Option<usize>) -> u64 {
    let Some(listed) = listed else { return random.below(WALKED as usize) as u64 };
    match random.below(9) {
        0 => listed as u64,
        1 => listed.saturating_sub(1) as u64,
        2 => random.below(listed + 2) as u64,
        3 => *random.pick(&[0, 1, 1 << 32, UNLIMITED - 1]),
        _ => UNLIMITED,
    }
}

/// The cases of whole shows, on a volume that says whether bodies are checked and which maps there are: with memory to spare, exactly enough and short,
/// for the whole tree and for a directory on the way, and with budgets. The first is asked in noise too, and others once in a while.
pub fn shown(random: &mut Random, disc: &Disc, asked: Asked, depth: Depth) -> Vec<Case> {
    let v = match asked {
        Asked::Unchecked => volume(random, disc, depth),
        Asked::Checked => Volume { checked: *random.pick(&SAYS), ..volume(random, disc, depth) },
        Asked::Mapped => Volume { checked: u32::from(random.once_in(2)), ..mapped_volume(random, disc, depth) },
    };
    let mut all = Vec::new();
    for _ in 0..if depth == Depth::All { 3 } else { 1 } {
        let q = Query::showing(v, levels(random, disc, v));
        let whole = expected(&disc.image, &q);
        let listed = (!whole.beyond).then_some(whole.sectors.len());
        let e = if whole.beyond { expected(&disc.image, &q.clone().lent(WALKED)) } else { whole };
        let most = e.directories.iter().copied().max().unwrap_or(0);
        let some = if e.directories.is_empty() { 0 } else { *random.pick(&e.directories) };
        let any = (random.below(e.full + 2), random.below(most + 2));
        let mut sizes = vec![
            (e.full, most),
            (e.full.saturating_sub(1), most),
            (e.full, most.saturating_sub(1)),
            (e.full, some),
            (e.full, some.saturating_sub(1)),
            (0, some.saturating_sub(1)),
            (0, most),
            (0, 0),
            any,
        ];
        if depth == Depth::Some {
            sizes.retain(|_| random.once_in(3));
        }
        sizes.insert(0, (e.full + random.below(80), most + random.below(80)));
        for (i, (room, work)) in sizes.into_iter().enumerate() {
            let (query, in_noise) = (q.with(room, work).lent(budget(random, listed)), i == 0 || random.once_in(4));
            all.push(Case { expected: expected(&disc.image, &query), query: query.clone(), in_noise: false });
            if in_noise {
                all.push(Case { expected: expected(&disc.image, &query), query, in_noise: true });
            }
        }
    }
    all
}

/// Every read by ICB among the cases, measured: on the image, and in noise.
pub fn measured(disc: &Disc, cases: &[Case]) -> Vec<Case> {
    let mut reads: Vec<&Query> = cases.iter().map(|case| &case.query).filter(|q| q.call == Call::Read).collect();
    // Those of one file follow each other, with one room after another.
    reads.dedup_by(|a, b| (a.volume, a.icb) == (b.volume, b.icb));
    let measured = reads.into_iter().map(|q| Query { call: Call::Measure, ..q.with(0, 0) });
    measured.flat_map(|q| [false, true].map(|in_noise| Case { expected: expected(&disc.image, &q), query: q.clone(), in_noise })).collect()
}

/// How the images of a survey are opened: by the choices that the image is asked with, and once in a while by another, or by a number of none.
fn survey_choice(random: &mut Random, asked: Asked) -> u32 {
    let how = match asked {
        Asked::Unchecked => 0,
        Asked::Checked => CHECKED,
        Asked::Mapped if random.once_in(2) => MAPS | CHECKED,
        Asked::Mapped => MAPS,
    };
    match random.below(12) {
        0 | 1 => how | HIGHEST,
        2 if random.once_in(3) => how | *random.pick(&[8, 16, 1 << 31]),
        _ => how,
    }
}

/// Whether an image has too many paths to be surveyed without a budget: where a directory has many names.
fn is_much(image: &[u8], how: u32) -> bool {
    let opened = expected(image, &Query { how, ..Query::of(Call::Open, Volume::default()) }).values;
    let show = Query::showing(opened.volume, surveys::LEVELS).lent(WALKED);
    opened.answer == 0 && expected(image, &show).values.answer == OVER_BUDGET
}

/// A survey with these memories, and budgets around the sectors that an image takes: the first is asked in noise too where that can be told, and so are others once in
/// a while.
fn surveys_of(random: &mut Random, shelf: &[u8], queries: Vec<Query>, listed: Option<usize>, has_noise: bool) -> Vec<Case> {
    let mut all = Vec::new();
    for (i, query) in queries.into_iter().enumerate() {
        let query = query.lent(budget(random, listed));
        let in_noise = has_noise && (i == 0 || random.once_in(4));
        for in_noise in [false, true].into_iter().take(1 + usize::from(in_noise)) {
            all.push(Case { expected: expected(shelf, &query), query: query.clone(), in_noise });
        }
    }
    all.retain(|case| !case.expected.beyond);
    all
}

/// The surveys of an image by itself: with memory to spare, exactly enough and short, cut, and beside images without a byte.
pub fn surveyed(random: &mut Random, disc: &Disc, asked: Asked, depth: Depth) -> Vec<Case> {
    let (how, length) = (survey_choice(random, asked), disc.image.len() as u64);
    let is_much = is_much(&disc.image, how);
    let q = Query::survey(how, &[length]).lent(if is_much { WALKED } else { UNLIMITED });
    let e = expected(&disc.image, &q);
    let listed = (!is_much).then_some(e.sectors.len());
    let most = e.directories.iter().copied().max().unwrap_or(0);
    let some = if e.directories.is_empty() { 0 } else { *random.pick(&e.directories) };
    let of = |lengths: &[u64], spare: usize| Query::survey(how, lengths).with(PLACE * (lengths.len() + 1) + spare, most);
    let any = 1 + random.below(disc.image.len() + 1) as u64;
    let cut = length.saturating_sub(*random.pick(&[1, 2047, 2048, 2049, any]));
    let passes = *random.pick(&[[1, length], [length, u64::MAX], [1 << 63, 1 << 63], [u64::MAX, 1]]);
    let mut all = vec![
        of(&[length], 0),
        q.with(2 * PLACE - 1, most),
        q.with(random.below(2 * PLACE), most),
        q.with(2 * PLACE, most.saturating_sub(1)),
        q.with(2 * PLACE, some),
        q.with(2 * PLACE, some.saturating_sub(1)),
        q.with(2 * PLACE, 0),
        of(&[cut], 3),
        of(&[], 1),
        of(&[0, length], 0),
        of(&[length, 0], 80),
        of(&[length + 1], 0),
        of(&passes, 0),
    ];
    if depth == Depth::Some {
        all.retain(|_| random.once_in(4));
    }
    all.insert(0, q.with(2 * PLACE + random.below(5), most + random.below(80)));
    surveys_of(random, &disc.image, all, listed, true)
}

/// The surveys of images one behind another, of these lengths in all: as long as they are, with lengths that are wrong, and with rows that are
/// too short.
pub fn shelved(random: &mut Random, shelf: &[u8], lengths: &[u64]) -> Vec<Case> {
    let asked = *random.pick(&[Asked::Unchecked, Asked::Unchecked, Asked::Checked, Asked::Mapped]);
    let how = survey_choice(random, asked);
    let mut images = lengths.iter().scan(0, |end, n| {
        *end += *n as usize;
        Some(&shelf[*end - *n as usize..*end])
    });
    let is_much = images.any(|image| is_much(image, how));
    let (q, numbers) = (Query::survey(how, lengths).lent(if is_much { WALKED } else { UNLIMITED }), PLACE * (lengths.len() + 1));
    let e = expected(shelf, &q);
    let most = e.directories.iter().copied().max().unwrap_or(0);
    let some = if e.directories.is_empty() { 0 } else { random.pick(&e.directories).saturating_sub(1) };
    let other = |random: &mut Random, change: fn(u64, u64) -> u64, by: u64| {
        let (mut other, at) = (lengths.to_vec(), random.below(lengths.len()));
        other[at] = change(other[at], by);
        Query::survey(how, &other).with(numbers, most)
    };
    let (by, huge) = (*random.pick(&[1, 2047, 2048, 4096]), u64::MAX - random.below(4) as u64);
    let all = [
        q.with(numbers + random.below(90), most + random.below(80)),
        q.with(numbers, some),
        q.with(numbers - 1, most),
        q.with(random.below(numbers), most),
        other(random, u64::saturating_sub, by),
        other(random, u64::wrapping_add, 1),
        other(random, u64::wrapping_add, by),
        other(random, |_, huge| huge, huge),
    ];
    let is_whole = lengths.iter().rev().skip(1).all(|n| n % 2048 == 0);
    // As many as an image takes, if all take the same.
    let listed = (!is_much).then_some(e.sectors.len() / lengths.len());
    let mut cases = surveys_of(random, shelf, all[..1].to_vec(), listed, is_whole);
    cases.extend(surveys_of(random, shelf, all[1..].to_vec(), listed, false));
    cases
}

/// Totals of rows of any figures, with any marks, of enough places, exactly enough, and too few.
pub fn totals(random: &mut Random) -> Vec<Case> {
    let mut all = Vec::new();
    for _ in 0..4 {
        let images = random.below(5);
        let seldom = *random.pick(&[2, 6, 40]);
        let size = (PLACE * (images + 1) + random.below(3) * random.below(90)).saturating_sub(*random.pick(&[0, 0, 0, 1, 76]));
        let figure = |i: usize, random: &mut Random| match i % 2 {
            0 if random.once_in(3) => random.odd(),
            0 => *random.pick(&[0, 1, u64::MAX / 2, u64::MAX / 2 + 1, u64::MAX]),
            _ if random.once_in(seldom) => *random.pick(&[1, 2, 1 << 32, u64::MAX]),
            _ => 0,
        };
        let row: Vec<u64> = (0..size).map(|i| figure(i, random)).collect();
        let images = if random.once_in(8) { random.odd() } else { images as u64 };
        let query = Query::total(row, images);
        all.push(Case { expected: surveys::totalling(&query), query, in_noise: false });
    }
    all
}
