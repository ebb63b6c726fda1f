//! The stored queries of the program `asker`: by the raw calls, with memory of exactly the size that each query lends, so that refusals for
//! want of it are among the answers; and by [`Counted`], which lends what is needed, so that it is never refused so. What is expected are the
//! stored lines, which a model of the rules computes and `compare` holds to the original.
#![allow(unsafe_code)] // to look at lent memory behind what a call has written

use crate::answer::{Answer, Answered, Refusal, Refused};
use crate::calls::{self, Rows};
use crate::counted::Counted;
use crate::counted_drive::CountedDrive;
use crate::how::How;
use crate::matching::Matching;
use crate::records::{DirEntry, LongAd};
use crate::sequence::{Kind, volume_descriptors};
use crate::stored;
use crate::tree::Show;
use std::collections::BTreeSet;
use std::io::Cursor;
use strandlodge_sys::asked::{Call, FILES, Image, Query};
use strandlodge_sys::icbs::recorded;
use strandlodge_sys::replay::{Asked, Counts, replay, sections};
use strandlodge_sys::said::{CAME, Said};
use strandlodge_sys::vault::{Extent, Run, UNLIMITED, Volume};

// ---- what a call gave, as it is stored

fn matching(q: &Query) -> Matching {
    match q.matching {
        0 => Matching::CaseIgnored,
        1 => Matching::AsWritten,
        _ => Matching::Unambiguous,
    }
}

fn how(number: u32) -> How {
    How { checked: number & 1 != 0, maps: number & 2 != 0, highest: number & 4 != 0 }
}

fn said<T>(answer: Answered<T>, with: impl FnOnce(Said, T) -> Said) -> Said {
    match answer {
        Ok(Answer { value, sectors }) => with(Said::of(0, sectors), value),
        Err(refused) => Said::of(refused.number(), refused.sectors),
    }
}

fn found(answer: Answered<LongAd>) -> Said {
    said(answer, |said, icb| Said { icb: recorded(&icb.to_c()), ..said })
}

/// Where a part stands, and its bytes. Without one it is the front of the whole, of length 0.
fn part_of(whole: &[u8], part: &[u8], said: Said) -> Said {
    Said { at: (part.as_ptr().addr() - whole.as_ptr().addr()) as u64, ..said.with(part.to_vec()) }
}

/// The component stands in an answer here, where the line has the lookup's 3.
fn failed(answer: Answered<Option<&[u8]>>, path: &[u8]) -> Said {
    said(answer, |said, component| match component {
        Some(component) => part_of(path, component, Said { answer: 3, ..said }),
        None => said,
    })
}

// ---- lent memory

/// An empty vector with room for exactly this many, all of it written once.
fn lent<T: Copy>(n: u32, came: T) -> Vec<T> {
    let mut lent = Vec::with_capacity(n as usize);
    lent.resize(n as usize, came);
    assert_eq!(lent.capacity(), n as usize);
    lent.clear();
    lent
}

/// All that was lent, as the call left it.
fn whole<T: Copy>(mut lent: Vec<T>) -> Vec<T> {
    // SAFETY: `lent` has written every place, and a call writes none but with a value of the place's own kind.
    unsafe { lent.set_len(lent.capacity()) };
    lent
}

/// Whether the memory after the content is unchanged.
fn is_kept<T: Copy + PartialEq>(content: Vec<T>, came: T) -> bool {
    let front = content.len();
    whole(content)[front..].iter().all(|one| *one == came)
}

const WORD: u32 = u32::from_le_bytes([CAME; 4]);
const NUMBER: u64 = u64::from_le_bytes([CAME; 8]);
const EXTENT: Extent = Extent { length: WORD, extent_type: WORD, block: WORD, partition: WORD };
const RUN: Run = Run { at: NUMBER, length: NUMBER };

// ---- the raw calls

fn raw(asked: &Asked) -> Said {
    let Asked { image, volume: v, call, query: q, .. } = *asked;
    let (icb, path, m) = (LongAd::recorded(&q.icb), &q.text[..], matching(q));
    let (mut out, mut work) = (lent(q.room, CAME), lent(q.work, CAME));
    let given = match call {
        Call::Probe => Said::of(calls::probe(image).into(), 0),
        Call::Open => said(calls::open(image, q.volume), |said, volume| Said { volume, ..said }),
        Call::Label => said(calls::label(image, q.volume, &mut out), |said, ()| said.with(out.clone())),
        Call::Lookup => found(calls::lookup(v, image, path, m, &mut work)),
        Call::Failed | Call::FailedAt => failed(calls::failed(v, image, path, m, &mut work), path),
        Call::List => said(calls::list(v, image, icb, &mut out, &mut work), |said, ()| said.with(out.clone())),
        Call::Read => said(calls::read(v, image, icb, &mut out), |said, ()| said.with(out.clone())),
        Call::Part | Call::PartAt => said(calls::part(v, image, icb), |said, part| part_of(image, part, said)),
        Call::Extents => extents(v, image, icb, q),
        Call::ReadPath => said(calls::read_path(v, image, path, m, &mut out, &mut work), |said, ()| said.with(out.clone())),
        Call::ReadAll => {
            let mut rows = Rows { lengths: lent(q.slots, NUMBER), answers: lent(q.answers, WORD) };
            let given = said(calls::read_all(v, image, path, m, &mut out, &mut rows, &mut work), |said, ()| said.with(out.clone()));
            Said { lengths: whole(rows.lengths), answers: whole(rows.answers).into_iter().map(u64::from).collect(), ..given }
        }
        Call::Show => said(calls::show(v, image, q.levels, q.most, &mut out, &mut work), |said, ()| said.with(out.clone())),
        Call::Measure => said(calls::measure(v, image, icb), |said, length| Said { length, ..said }),
        Call::Runs => runs(v, image, icb, q),
    };
    Said { is_kept: given.is_kept && is_kept(out, CAME), is_zero: whole(work).iter().all(|byte| *byte == 0), ..given }
}

fn extents(v: Volume, image: &[u8], icb: LongAd, q: &Query) -> Said {
    let mut row = lent(q.slots, EXTENT);
    let slot = |s: &Extent| [s.length, s.extent_type, s.block, s.partition].map(u64::from).to_vec();
    let given = said(calls::extents(v, image, icb, &mut row), |said, ()| said.with_slots(row.iter().map(slot).collect()));
    Said { is_kept: is_kept(row, EXTENT), ..given }
}

fn runs(v: Volume, image: &[u8], icb: LongAd, q: &Query) -> Said {
    let mut row = lent(q.slots, RUN);
    let given =
        said(calls::runs(v, image, icb, &mut row), |said, ()| said.with_slots(row.iter().map(|run| vec![run.at, run.length]).collect()));
    Said { is_kept: is_kept(row, RUN), ..given }
}

/// What holds of the calls on an ICB beside their lines, whatever was lent.
fn hold_icb(asked: &Asked, given: &Said) {
    let Asked { image, volume, call, query: q, .. } = *asked;
    let icb = LongAd::recorded(&q.icb);
    match call {
        Call::List if given.answer == Refusal::NoWork.number() => hold_short(asked, given, q.work),
        Call::Read if given.answer == Refusal::NoRoom.number() => hold_short(asked, given, q.room),
        Call::Read => {
            let measured = said(calls::measure(volume, image, icb), |said, length| Said { length, ..said });
            assert_eq!(measured.line(Call::Measure), given.line(Call::Measure));
            let from_drive = said(CountedDrive::over(Cursor::new(image), volume).read_file(icb), |said, bytes| said.with(bytes));
            assert_eq!((from_drive.line(call), &from_drive.bytes), (given.line(call), &given.bytes));
        }
        Call::List | Call::Part | Call::Extents => {}
        _ => return,
    }
    hold_runs(volume, image, icb);
}

/// A call that was lent too little: what is measured is more, and has the same count.
fn hold_short(asked: &Asked, given: &Said, lent: u32) {
    let bytes = calls::measure(asked.volume, asked.image, LongAd::recorded(&asked.query.icb)).unwrap();
    assert!(bytes.value > lent.into());
    assert_eq!(bytes.sectors, given.count);
}

/// The runs of a file, with memory as it is needed: joined they are the read, with its refusal and its count. Then with as many slots as there
/// are runs, with one too few and with none: 7 comes last, with the same count.
fn hold_runs(volume: Volume, image: &[u8], icb: LongAd) {
    let disc = Counted::over(image, volume, How::default());
    let (runs, read) = match (disc.runs(icb), disc.read_file(icb)) {
        (Ok(runs), Ok(read)) => (runs, read),
        (runs, read) => return assert_eq!(runs.map(|runs| runs.len()), read.map(|read| read.len() as u64)),
    };
    assert_eq!((runs.sectors, runs.len(), runs.is_empty()), (read.sectors, read.len() as u64, read.is_empty()));
    let places: Vec<_> = runs.places().collect();
    assert!(places.iter().all(|run| run.length > 0) && runs.size_hint() == (places.len(), Some(places.len())));
    let parts: Vec<&[u8]> = runs.value.collect();
    assert_eq!(parts.concat(), read.value);
    let stands = |(run, part): (&crate::Run, &&[u8])| part == &&image[run.at as usize..][..run.length as usize];
    assert!(places.len() == parts.len() && places.iter().zip(&parts).all(stands));
    for slots in [Some(places.len()), places.len().checked_sub(1), Some(0)].into_iter().flatten() {
        let given = said(calls::runs(volume, image, icb, &mut lent(slots as u32, RUN)), |said, ()| said);
        assert_eq!((given.answer, given.count), (if slots < places.len() { 7 } else { 0 }, read.sectors));
    }
}

// ---- `Counted`

/// A listing's record after its mark, from an entry that was read from one.
fn record(entry: &DirEntry) -> Vec<u8> {
    let (icb, n) = (recorded(&entry.icb.to_c()), entry.name.len() as u16);
    [&[u8::from(entry.is_directory)], &icb[..], &n.to_le_bytes(), entry.name.as_bytes()].concat()
}

fn listing(entries: &[DirEntry]) -> Vec<u8> {
    entries.iter().flat_map(|entry| [&b"DE"[..], &record(entry)].concat()).collect()
}

fn records(show: Show) -> Vec<u8> {
    show.flat_map(|one| [&b"DE"[..], &[one.level], &record(&one.entry)].concat()).collect()
}

/// Where the query lent too little, it isn't refused so here, and there is nothing to compare.
fn counted(asked: &Asked) -> Option<Said> {
    let Asked { image, volume, call, query: q, is_short } = *asked;
    let (icb, path, m, disc) = (LongAd::recorded(&q.icb), &q.text[..], matching(q), Counted::over(image, volume, how(q.volume)));
    let given = match call {
        Call::Probe => Said::of(crate::probe_vrs(image).into(), 0),
        Call::Open => said(Counted::open_as(image, how(q.volume)), |said, disc| Said { volume: opened(disc), ..said }),
        Call::Label => said(Counted::label_of(image, how(q.volume)), |said, label| said.with(label.into_bytes())),
        Call::Lookup => {
            hold_matching(&disc, path);
            let icb = disc.lookup_as(path, m);
            icb.iter().for_each(|icb| hold_measured(&disc, icb.value));
            found(icb)
        }
        Call::Failed | Call::FailedAt => failed(disc.failed_as(path, m), path),
        Call::List => said(disc.read_directory(icb), |said, entries| said.with(listing(&entries))),
        Call::Read => {
            hold_measured(&disc, icb);
            said(disc.read_file(icb), |said, bytes| said.with(bytes))
        }
        Call::Part | Call::PartAt => said(disc.part(icb), |said, part| part_of(image, part, said)),
        Call::Extents => said(disc.extents(icb), |said, extents| said.with_slots(extents.iter().map(slot).collect())),
        Call::ReadPath => said(disc.read_path_as(path, m), |said, bytes| said.with(bytes)),
        Call::ReadAll => list(&disc, q),
        Call::Show => said(disc.show(q.levels, q.most), |said, show| said.with(records(show))),
        Call::Measure => said(disc.measure(icb), |said, length| Said { length, ..said }),
        Call::Runs => said(disc.runs(icb), |said, runs| said.with_slots(runs.places().map(|run| vec![run.at, run.length]).collect())),
    };
    assert!(![5, 6, 7, 12].contains(&given.answer), "{call:?} {q:?}");
    (!is_short).then_some(given)
}

fn slot(extent: &crate::AllocExtent) -> Vec<u64> {
    vec![extent.length.into(), extent.extent_type.into(), extent.block.into(), extent.partition_ref.map_or(65_536, u64::from)]
}

/// The volume that was opened: it has the label that the image has, and the partition descriptor that is said to prevail is the one that it was
/// opened by, where it has no maps.
fn opened(disc: Counted) -> Volume {
    let (image, how, volume) = (disc.image(), disc.how(), disc.volume());
    assert_eq!(disc.label(), Counted::label_of(image, how));
    let all = volume_descriptors(image, how);
    let mut ones = all.iter().filter(|one| one.prevails && one.kind == Kind::Partition);
    if !how.maps {
        let start = &image[ones.next().unwrap().sector as usize * 2048 + 188..][..4];
        assert_eq!((start, ones.next()), (&volume.mount.start.to_le_bytes()[..], None));
    }
    volume
}

fn is_ambiguous(answer: &Answered<LongAd>) -> bool {
    matches!(answer, Err(Refused { why: Refusal::Ambiguous, .. }))
}

/// What the other choices come to beside the first: an unambiguous path is the first choice's or refused by 9, as no other is; and where a
/// path gives something as it is written and is unambiguous, both are the same.
fn hold_matching(disc: &Counted, path: &[u8]) {
    let [first, written, only] =
        [Matching::CaseIgnored, Matching::AsWritten, Matching::Unambiguous].map(|matching| disc.lookup_as(path, matching));
    assert!(!is_ambiguous(&first) && !is_ambiguous(&written));
    if !is_ambiguous(&only) {
        assert_eq!(only, first);
    }
    if let (Ok(written), Ok(only)) = (written, only) {
        assert_eq!(written, only);
    }
}

/// What is measured is the length of what is read, with its number and its count.
fn hold_measured(disc: &Counted, icb: LongAd) {
    assert_eq!(disc.measure(icb), disc.read_file(icb).map(|read| read.map(|bytes| bytes.len() as u64)));
}

/// A list of paths: each item is what the path gives by itself.
fn list(disc: &Counted, q: &Query) -> Said {
    let (paths, m): (Vec<&[u8]>, Matching) = (q.text.split(|byte| *byte == 0).collect(), matching(q));
    let given = disc.read_all_as(&paths, m).unwrap();
    let alone: Vec<Said> = paths.iter().map(|path| said(disc.read_path_as(path, m), |said, bytes| said.with(bytes))).collect();
    assert_eq!(given.sectors, alone.iter().map(|one| one.count).sum::<u64>());
    let bytes: Vec<u8> = given.iter().flatten().flatten().copied().collect();
    let item = |item: &crate::Item| item.as_ref().map_or_else(|why| (0, why.number()), |bytes| (bytes.len() as u64, 0));
    let items: Vec<(u64, u64)> = given.iter().map(item).collect();
    assert_eq!(items, alone.iter().map(|one| (one.length, one.answer)).collect::<Vec<_>>());
    assert!(alone.iter().flat_map(|one| &one.bytes).eq(&bytes));
    Said::of(0, given.sectors).with(bytes).with_rows(&items, q)
}

// ---- the files

/// Replays every file.
fn replayed(mut asker: impl FnMut(&Asked) -> Option<Said>) -> Vec<Counts> {
    let output = stored::output();
    let sections = sections(&output);
    assert_eq!(sections.iter().map(|(name, _)| *name).collect::<Vec<_>>(), FILES);
    let one = |(name, lines): &(&str, &str)| replay(&stored::file(name), lines, &mut asker).unwrap_or_else(|what| panic!("{name}: {what}"));
    sections.iter().map(one).collect()
}

/// Of each file the images, the queries, and the lines of each call: it is seen where one comes to have fewer.
const STORED: [(usize, usize, [usize; 16]); FILES.len()] = [
    (144, 432, [144, 288, 432, 0, 0, 0, 0, 0, 0, 0, 0, 0, 0, 0, 0, 0]),
    (49, 387, [0, 0, 0, 0, 0, 0, 387, 387, 387, 0, 0, 0, 0, 0, 0, 0]),
    (47, 1036, [0, 47, 20, 663, 663, 306, 306, 306, 0, 663, 0, 0, 0, 0, 0, 0]),
    (15, 819, [0, 15, 0, 804, 804, 0, 0, 0, 0, 804, 0, 0, 0, 0, 804, 0]),
    (274, 1100, [0, 547, 546, 553, 553, 553, 553, 0, 553, 553, 0, 0, 0, 0, 0, 553]),
    (275, 921, [0, 550, 547, 371, 0, 371, 371, 0, 371, 371, 0, 0, 0, 0, 0, 371]),
    (3, 42, [0, 19, 19, 33, 0, 27, 86, 0, 55, 128, 18, 0, 0, 0, 33, 55]),
    (6, 121, [0, 6, 0, 0, 0, 0, 0, 0, 0, 0, 115, 0, 0, 0, 0, 0]),
    (148, 2906, [0, 148, 0, 0, 0, 0, 0, 0, 0, 0, 0, 2758, 0, 0, 0, 0]),
    (444, 7416, [444, 444, 955, 1243, 852, 963, 708, 437, 652, 718, 0, 0, 0, 0, 0, 0]),
    (74, 1983, [104, 148, 148, 173, 173, 205, 205, 165, 165, 197, 744, 335, 1225, 1584, 173, 165]),
    (13, 362, [0, 12, 0, 0, 0, 0, 0, 0, 0, 0, 0, 403, 0, 0, 0, 0]),
];

/// The answer numbers that the calls have.
const ANSWERS: [u64; 13] = [0, 1, 2, 3, 4, 5, 6, 7, 9, 10, 11, 12, 16];

#[test]
fn the_raw_calls_say_what_is_stored() {
    let counts = replayed(|asked| {
        let given = raw(asked);
        hold_icb(asked, &given);
        Some(given)
    });
    let numbers: Vec<_> = counts.iter().map(|one| (one.images, one.queries, Call::ALL.map(|call| one.of(call)))).collect();
    assert_eq!(numbers, STORED);
    let answers: BTreeSet<u64> = counts.iter().flat_map(|one| one.compared.keys().map(|(_, answer)| *answer)).collect();
    assert!(answers.iter().eq(&ANSWERS), "{answers:?}");
}

/// All but what is refused for want of memory.
#[test]
fn counted_says_what_is_stored() {
    let mut all = Counts::default();
    replayed(counted).iter().for_each(|one| all.add(one));
    let (compared, passed): (usize, usize) = (all.compared.values().sum(), all.passed.values().sum());
    assert_eq!(compared + passed, STORED.iter().flat_map(|(_, _, lines)| lines).sum());
    assert!(compared > 25_000 && Call::ALL.iter().all(|call| all.of(*call) > 0), "{all:?}");
}

/// Every path of a show leads back to its entry, where no name on it is ambiguous.
#[test]
fn paths_of_a_show_lead_back() {
    let mut shown = 0;
    for Image { name, bytes, .. } in stored::images("trees") {
        if name == "names" || name.contains("each naming the next") {
            continue;
        }
        let disc = Counted::open(&bytes).unwrap();
        for one in disc.show(16, UNLIMITED).into_iter().flatten() {
            assert_eq!(one.path.split('/').count(), usize::from(one.level), "{name}: {}", one.path);
            let found = disc.lookup_as(&one.path, Matching::Unambiguous);
            if !is_ambiguous(&found) {
                assert_eq!(found.unwrap().value, one.entry.icb, "{name}: {}", one.path);
                shown += 1;
            }
        }
    }
    assert!(shown > 500, "{shown}");
}
