//! What is asked of an image, and what has to hold of an answer whatever the image, the path or a row holds meanwhile.

use crate::faults;
use crate::flips::Of;
use crate::memory::{Piece, Side, Store};
use crate::stage::Raced;
use common::calls::{Call, Choice, PLACE, Query, Values};
use common::linked::{self, Lends};
use strandlodge_sys::vault::{
    AMBIGUOUS, AS_WRITTEN, BAD_CRC, BAD_SHELF, CASE_IGNORED, NO_SLOT, OVER_BUDGET, TOO_DEEP, TOO_MANY, UNAMBIGUOUS, UNLIMITED,
};

/// The table's numbers: up to this one, two more, each by a choice, two of a show, and one of a list of paths.
const LAST_ANSWER: u64 = NO_SLOT;

/// The choices of matching, by turns along the paths.
const MATCHINGS: [u32; 3] = [CASE_IGNORED, AS_WRITTEN, UNAMBIGUOUS];

/// The budgets, by turns, of shows and surveys: the trees here take a few sectors.
const BUDGETS: [u64; 7] = [UNLIMITED, 2, UNLIMITED, 4, 1, 9, 0];

/// More than any answer here has, in bytes and in slots.
const PLENTY: usize = 1 << 19;
const MANY_SLOTS: usize = 1 << 13;

/// A query in both states of the flip, what it is called if it goes wrong, and the answers that the two states give while they stand still.
pub struct Ask {
    pub query: Query,
    pub other: Query,
    pub words: &'static str,
    still: [[u64; 4]; 2],
}

impl Ask {
    /// Whether an answer is that of one of the two states.
    pub fn is_of_either(&self, values: &Values) -> bool {
        self.still.contains(&summed(values))
    }
}

fn summed(v: &Values) -> [u64; 4] {
    [v.answer, v.count, v.length, v.place]
}

/// What a call is lent that somebody may write to meanwhile.
#[derive(Clone, Copy)]
pub struct Flipped<'q> {
    /// Where the image starts, and how long it is.
    pub image: (*const u8, usize),
    /// Where the path, or a shelf's row of lengths, starts if that is what is flipped, and the query in its other state.
    pub found: Option<(*mut u8, &'q Query)>,
}

impl<'q> Flipped<'q> {
    /// An image, and nothing else.
    pub fn image(at: *const u8, length: usize) -> Flipped<'q> {
        Flipped { image: (at, length), found: None }
    }
}

/// The memory that is lent for calls.
#[derive(Default)]
pub struct Lender {
    path: Store,
    out: Store,
    work: Store,
    lengths: Store,
    answers: Store,
    place: Store,
}

/// The pieces that a call may write to, and its path.
struct Lent<'s> {
    path: Piece<'s>,
    out: Piece<'s>,
    work: Piece<'s>,
    lengths: Piece<'s>,
    answers: Piece<'s>,
    place: Piece<'s>,
}

impl Lender {
    /// Makes a call while somebody may write to what it is about. The bits of `sides` say with which guard each piece is flush. Gives
    /// what was answered, or what must not be.
    pub fn ask(&mut self, q: &Query, flipped: Flipped, sides: u64) -> Result<Values, String> {
        let side = |bit: u32| if sides >> bit & 1 == 0 { Side::Left } else { Side::Right };
        let (other, found) = flipped.found.map_or((q, None), |(at, other)| (other, Some(at)));
        let (found_path, found_row) = if q.call == Call::Survey { (None, found) } else { (found, None) };
        let mut path = self.path.piece(if found_path.is_some() { 0 } else { q.path.len() }, side(0));
        let mut out = self.out.piece(q.room_bytes(), side(1));
        let mut work = self.work.piece(if q.call.has_work() { q.work } else { 0 }, side(2));
        let mut place = self.place.piece(size_of::<usize>(), side(3));
        let mut lengths = self.lengths.piece(if found_row.is_some() { 0 } else { q.places[0] * size_of::<u64>() }, side(4));
        let mut answers = self.answers.piece(q.places[1] * size_of::<u32>(), side(5));
        path.bytes().iter_mut().zip(&q.path).for_each(|(to, byte)| *to = *byte);
        lengths.bytes().chunks_exact_mut(8).zip(&q.shelf).for_each(|(to, n)| to.copy_from_slice(&n.to_le_bytes()));
        let (image_at, image_length) = flipped.image;
        let lends = Lends {
            image: image_at,
            image_length,
            path: found_path.unwrap_or(path.at()),
            out: out.at(),
            work: work.at(),
            lengths: found_row.unwrap_or(lengths.at()).cast(),
            answers: answers.at().cast(),
            place: place.at().cast(),
        };
        faults::lend(&[
            ("image", lends.image.addr(), image_length),
            ("path", lends.path.addr(), q.path.len()),
            ("output", lends.out.addr(), out.length),
            ("work space", lends.work.addr(), work.length),
            ("lengths", lends.lengths.addr(), q.places[0] * size_of::<u64>()),
            ("answers", lends.answers.addr(), answers.length),
            ("place", lends.place.addr(), place.length),
        ]);
        // SAFETY: the pieces are of six stores, and what is flipped of others: none overlap, and each is as long as said.
        let mut values = unsafe { linked::make(q, lends) };
        in_range(q, other, &values, image_length)?;
        if q.call == Call::ReadAll && values.answer == 0 {
            // No answer number is as the row came.
            let items = answers.words_written(size_of::<u32>());
            values.rows = rows(items, lengths.bytes(), answers.bytes());
            in_rows(q, other, &values)?;
        }
        held(q, &values, Lent { path, out, work, lengths, answers, place })?;
        Ok(values)
    }
}

/// The lengths and the answers of so many paths.
fn rows(items: usize, lengths: &[u8], answers: &[u8]) -> Vec<(u64, u32)> {
    let lengths = lengths.chunks_exact(8).map(|b| u64::from_le_bytes(b.try_into().unwrap()));
    let answers = answers.chunks_exact(4).map(|b| u32::from_le_bytes(b.try_into().unwrap()));
    lengths.zip(answers).take(items).collect()
}

/// Whether a number of the table can be the answer to a call on an image, by its choices.
fn is_listed(q: &Query, answer: u64) -> bool {
    answer <= LAST_ANSWER
        || answer == AMBIGUOUS && q.call.has_path() && q.matching == UNAMBIGUOUS
        || answer == BAD_CRC && q.is_checked()
        || answer == TOO_DEEP && q.call == Call::Show
        || answer == OVER_BUDGET && q.call == Call::Show && q.most != UNLIMITED
}

/// The rows of a list: a place for each path as long as there are places, each with an answer of a read by path, no length where it is
/// refused, and all lengths together. How many paths there are may be other in the list's other state.
fn in_rows(q: &Query, other: &Query, v: &Values) -> Result<(), String> {
    let [a, b] = [q, other].map(|q| q.items().count().min(q.places[0]).min(q.places[1]));
    if v.rows.len() < a.min(b) || v.rows.len() > a.max(b) {
        return Err(format!("done with {} places, and {a} or {b} paths", v.rows.len()));
    }
    for (i, (length, answer)) in v.rows.iter().enumerate() {
        if !is_listed(q, u64::from(*answer)) || *answer != 0 && *length != 0 {
            return Err(format!("path {i} of the list has answer {answer} and length {length}"));
        }
    }
    let sum = v.rows.iter().try_fold(0u64, |sum, (length, _)| sum.checked_add(*length));
    if sum != Some(v.length) {
        return Err(format!("the lengths of the list are {sum:?} together, and the call's is {}", v.length));
    }
    Ok(())
}

/// The answer of a call that is refused exactly where a row is too short, or a shelf.
fn by_the_rows(q: &Query, image_length: usize) -> Option<u64> {
    let fits = |shelf: &[u64]| shelf.iter().try_fold(0u64, |sum, n| sum.checked_add(*n)).is_some_and(|sum| sum <= image_length as u64);
    match q.call {
        Call::ReadAll => Some(if q.items().count() > q.places[0].min(q.places[1]) { TOO_MANY } else { 0 }),
        Call::Survey => Some(if !fits(&q.shelf) || q.room < PLACE * (q.shelf.len() + 1) { BAD_SHELF } else { 0 }),
        _ => None,
    }
}

/// The numbers of an answer. A list of paths and a survey have the answer of one of the two states.
fn in_range(q: &Query, other: &Query, v: &Values, image_length: usize) -> Result<(), String> {
    let by_the_rows = [q, other].map(|q| by_the_rows(q, image_length));
    if !by_the_rows.contains(&Some(v.answer)) && (by_the_rows != [None; 2] || !is_listed(q, v.answer)) {
        return Err(format!("the answer is {}, which isn't in the table", v.answer));
    }
    if v.count > q.most || v.answer == OVER_BUDGET && v.count != q.most {
        return Err(format!("answer {} with a count of {}, of a budget of {}", v.answer, v.count, q.most));
    }
    if v.answer == 0 && q.call.has_room() && v.length > q.room as u64 {
        return Err(format!("done with a length of {}, and room for {}", v.length, q.room));
    }
    if v.answer != 0 && v.length != 0 && q.call != Call::Failed {
        return Err(format!("refused by {} with a length of {}", v.answer, v.length));
    }
    let whole = if q.call == Call::Part { image_length } else { q.path.len() };
    if q.call.has_place() && v.place.checked_add(v.length).is_none_or(|end| end > whole as u64) {
        return Err(format!("{} bytes at {}, in {whole}", v.length, v.place));
    }
    Ok(())
}

/// The lent memory. All of it is left as it came, full of the pattern.
fn held(q: &Query, v: &Values, lent: Lent) -> Result<(), String> {
    let Lent { mut path, mut out, mut work, mut lengths, mut answers, mut place } = lent;
    let slot = match q.call {
        Call::Extents => 16,
        Call::Survey => 8,
        _ => 1,
    };
    let front = if v.answer == 0 && q.call.has_room() { v.length as usize * slot } else { 0 };
    let (path_length, work_length, place_length) = (path.length, work.length, place.length);
    // A survey finds lengths in their row, and a list of paths puts them there.
    let places = if q.call == Call::Survey { q.shelf.len() } else { v.rows.len() };
    let (lengths_front, answers_front) = ((places * size_of::<u64>()).min(lengths.length), v.rows.len() * size_of::<u32>());
    for (name, piece, front) in [
        ("path", &path, path_length),
        ("output", &out, front),
        ("work space", &work, work_length),
        ("row of lengths", &lengths, lengths_front),
        ("row of answers", &answers, answers_front),
        ("place", &place, place_length),
    ] {
        if let Some(at) = piece.touched(front) {
            return Err(format!("answer {}, length {}: byte {at} of the {name} was written to", v.answer, v.length));
        }
    }
    if path.bytes() != &q.path[..path_length] {
        return Err("the path was written to".to_string());
    }
    if lengths.bytes().chunks_exact(8).zip(&q.shelf).any(|(bytes, n)| bytes != n.to_le_bytes()) {
        return Err("the lengths of the images were written to".to_string());
    }
    if let Some(at) = work.bytes().iter().position(|b| *b != 0) {
        return Err(format!("answer {}: byte {at} of the work space is not zero", v.answer));
    }
    path.restore(path_length);
    out.restore(front);
    work.restore(work_length);
    lengths.restore(lengths_front);
    answers.restore(answers_front);
    place.restore(place_length);
    Ok(())
}

/// Everything that is asked of an image.
pub fn asks(raced: &Raced, lender: &mut Lender) -> Result<Vec<Ask>, String> {
    let mut states = [raced.image.clone(), raced.image.clone()];
    if raced.flip.of == Of::Image {
        raced.flip.put(&mut states[1], 1);
    }
    let mut still = |q: &Query| -> Result<[Values; 2], String> {
        let mut answer = |q: &Query, state: &[u8]| lender.ask(q, Flipped::image(state.as_ptr(), state.len()), 0);
        Ok([answer(q, &states[0])?, answer(&other(raced, q), &states[1])?])
    };
    let mut asks = Vec::new();
    for query in queries(raced, &mut still)? {
        let still = still(&query)?.each_ref().map(summed);
        asks.push(Ask { words: words(raced, &query).leak(), other: other(raced, &query), query, still });
    }
    Ok(asks)
}

/// A query in the flip's other state.
fn other(raced: &Raced, q: &Query) -> Query {
    let (flip, mut q) = (raced.flip, q.clone());
    match flip.of {
        Of::Path if q.call.has_path() => flip.put(&mut q.path, 1),
        Of::Lengths if q.call == Call::Survey => q.shelf[flip.at / 8] = flip.values[1],
        _ => {}
    }
    q
}

/// Every call, with room and work space that are exactly enough for each of the image's two states, a little less, and more.
fn queries(raced: &Raced, still: &mut impl FnMut(&Query) -> Result<[Values; 2], String>) -> Result<Vec<Query>, String> {
    let mut works = vec![0];
    for icb in &raced.icbs {
        works.extend(still(&Query::on(Call::Read, raced.volume, *icb).with(PLENTY, 0))?.map(|values| values.length as usize));
    }
    let works = distinct(works);
    // A show has the root's bytes in front of the subject's.
    let roots = still(&Query::on(Call::Read, raced.volume, raced.volume.root).with(PLENTY, 0))?.map(|values| values.length as usize);
    let shows = distinct(roots.iter().flat_map(|root| works.iter().map(move |work| root + work)).chain(works.iter().copied()).collect());
    let mut queries = Vec::new();
    for q in raced.calls.iter().flat_map(|call| asked(raced, *call)) {
        let plenty = q.with(if q.call == Call::Extents { MANY_SLOTS } else { PLENTY }, PLENTY);
        let rooms = match q.call {
            Call::Survey => [0, 1, 2].map(|more| PLACE * (q.shelf.len() + 1) - 1 + more).to_vec(),
            call if call.has_room() => rooms(still(&plenty)?.map(|values| values.length as usize)),
            _ => vec![0],
        };
        let works = match q.call {
            Call::Show | Call::Survey => &shows[..],
            call if call.has_work() => &works[..],
            _ => &[0],
        };
        queries.extend(rooms.iter().flat_map(|room| works.iter().map(|work| q.with(*room, *work))));
    }
    for (i, q) in queries.iter_mut().filter(|q| q.call.has_path()).enumerate() {
        q.matching = MATCHINGS[i % MATCHINGS.len()];
    }
    for (i, q) in queries.iter_mut().filter(|q| matches!(q.call, Call::Show | Call::Survey)).enumerate() {
        q.most = BUDGETS[i % BUDGETS.len()];
    }
    // All of it again with bodies checked, and through maps, but for the call that has no such choices.
    let checked: Vec<Query> = queries.iter().map(Query::checked).filter(Query::is_checked).collect();
    let mapped: Vec<Query> = queries.iter().map(Query::mapped).filter(Query::is_mapped).collect();
    queries.extend(checked);
    queries.extend(mapped);
    Ok(queries)
}

/// The queries of a call, with no memory yet.
fn asked(raced: &Raced, call: Call) -> Vec<Query> {
    let v = raced.volume;
    match call {
        Call::Probe | Call::Open | Call::Label => vec![Query::of(call, v)],
        // Rows for as many as the list has in either state, and around that.
        Call::ReadAll if raced.flip.of == Of::Path => {
            let q = Query::along(call, v, &raced.paths[0]);
            let [a, b] = [&q, &other(raced, &q)].map(|q| q.items().count());
            let (few, many) = (a.min(b), a.max(b));
            [[few, few], [few, many], [many, few], [many, many], [few - 1, many]].map(|places| Query { places, ..q.clone() }).to_vec()
        }
        // All of them, twice, in rows that are exact and too short.
        Call::ReadAll => {
            let q = Query::list(v, &[&raced.paths[..], &raced.paths].concat());
            let [n, _] = q.places;
            vec![Query { places: [n + 1, n], ..q.clone() }, Query { places: [n, n - 1], ..q }]
        }
        // The root has files and the subject, whose entries are files in either state.
        Call::Show => [1, 2, 3, 17].map(|levels| Query::showing(v, levels)).to_vec(),
        Call::Survey => vec![Query::survey(0, &raced.shelf)],
        // It has no image, and its row is the caller's to keep still.
        Call::Total => Vec::new(),
        _ if call.has_path() => raced.paths.iter().map(|path| Query::along(call, v, path)).collect(),
        _ => raced.icbs.iter().map(|icb| Query::on(call, v, *icb)).collect(),
    }
}

/// Exactly enough for either state, one less, and more.
fn rooms(lengths: [usize; 2]) -> Vec<usize> {
    let [a, b] = lengths;
    distinct(vec![a, b, a.min(b).saturating_sub(1), a.max(b) + 100])
}

fn distinct(mut numbers: Vec<usize>) -> Vec<usize> {
    numbers.sort();
    numbers.dedup();
    numbers
}

fn lent(q: &Query) -> String {
    if q.most == UNLIMITED { String::new() } else { format!(", lent {} sectors", q.most) }
}

fn words(raced: &Raced, q: &Query) -> String {
    let what = match q.call {
        call if call.has_path() => format!(" along \"{}\", {}", q.path.escape_ascii(), Choice::of(q.matching).name()),
        Call::Probe | Call::Open | Call::Label | Call::Total => String::new(),
        Call::Survey => lent(q),
        Call::Show => format!(" of {} levels{}", q.levels, lent(q)),
        _ => format!(" of block {}", q.icb.block),
    };
    let room = if q.call.has_room() { format!(", room {}", q.room) } else { String::new() };
    let work = if q.call.has_work() { format!(", work space {}", q.work) } else { String::new() };
    let checked = if q.is_checked() { ", checked" } else { "" };
    let mapped = if q.is_mapped() { ", through maps" } else { "" };
    format!("{}{what}{room}{work}{checked}{mapped}, on the flip \"{}\"", q.call.name(), raced.name)
}
