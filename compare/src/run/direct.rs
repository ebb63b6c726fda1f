//! The archive linked in, with lent memory as port.c lends it.

use super::calls::{Call, Given, Icb, Query, Values};
use super::lending::{GUARD, Lending};
use super::linked::{self, Lends};
use super::ours::{Ask, Noise, Ours, Timed};
use super::random::Random;
use super::raw::{RawAsk, RawGiven};
use super::raw_direct;
use super::stepping;
use super::steps::{StepAsk, StepGiven};
use std::hint::black_box;
use std::time::Instant;

/// The image, and the same with noise in place of what a call must not look at.
pub struct Direct {
    image: Vec<u8>,
    noise: Vec<u8>,
    kind: Noise,
}

impl Direct {
    pub fn new() -> Direct {
        Direct { image: Vec::new(), noise: Vec::new(), kind: Noise::Random(0) }
    }

    fn sector(&self, s: usize) -> std::ops::Range<usize> {
        s * 2048..(s * 2048 + 2048).min(self.image.len())
    }

    fn make_noise(&mut self, s: usize) {
        let to = self.sector(s);
        match self.kind {
            Noise::Random(seed) => {
                let bytes = Random::new((seed as u64) << 32 | s as u64).bytes(to.len());
                self.noise[to].copy_from_slice(&bytes);
            }
            Noise::Shifted(by) => {
                let sectors = self.image.len().div_ceil(2048);
                let other = (s + by as usize % sectors) % sectors * 2048;
                let other = if self.image.len() - other < to.len() { 0 } else { other };
                let n = to.len();
                self.noise[to].copy_from_slice(&self.image[other..other + n]);
            }
        }
    }

    fn answer(&mut self, ask: &Ask) -> Given {
        let kept: Vec<usize> =
            ask.kept.unwrap_or(&[]).iter().map(|s| *s as usize).filter(|s| s.saturating_mul(2048) < self.image.len()).collect();
        for s in &kept {
            let at = self.sector(*s);
            self.noise[at.clone()].copy_from_slice(&self.image[at]);
        }
        let disc = if ask.kept.is_some() { &self.noise } else { &self.image };
        let given = call(ask.query, disc, ask.salt);
        for s in kept {
            self.make_noise(s);
        }
        given
    }
}

impl Ours for Direct {
    fn load(&mut self, image: &[u8], noise: Noise) {
        self.image = image.to_vec();
        self.noise = image.to_vec();
        self.kind = noise;
        for s in 0..image.len().div_ceil(2048) {
            self.make_noise(s);
        }
    }

    fn answers(&mut self, asks: &[Ask]) -> std::io::Result<Vec<Given>> {
        Ok(asks.iter().map(|a| self.answer(a)).collect())
    }

    fn raws(&mut self, asks: &[&RawAsk]) -> std::io::Result<Vec<RawGiven>> {
        Ok(asks.iter().map(|a| raw_direct::answer(a)).collect())
    }

    fn steps(&mut self, asks: &[&StepAsk]) -> std::io::Result<Vec<StepGiven>> {
        Ok(asks.iter().map(|a| stepping::given(&self.image, a)).collect())
    }

    fn time(&mut self, timed: Timed, times: u32) -> std::io::Result<u64> {
        let (room, work) = match timed {
            Timed::Query(q) | Timed::Each(q) => (q.room_bytes(), q.work),
            Timed::Copy(n) => (n, 0),
        };
        let (mut out, mut work, mut rows) = (Lending::new(room, 0), Lending::new(work, 0), Rows::new([0; 2], 0));
        let mut each = Vec::new();
        match timed {
            Timed::Query(q) => rows = Rows::of(q, 0),
            Timed::Each(q) if q.call == Call::Show => {}
            Timed::Each(q) => each.extend(q.items().map(|path| q.item(path, q.room))),
            Timed::Copy(_) => {}
        }
        let mut once = || match timed {
            Timed::Query(q) => black_box(make(q, &self.image, out.lent(), work.lent(), &mut rows)).answer,
            Timed::Each(q) if q.call == Call::Show => {
                list_each(q, &self.image, q.volume.root, q.levels, (&mut out, 0), &mut work, &mut rows);
                0
            }
            Timed::Each(_) => each.iter().map(|q| black_box(make(q, &self.image, out.lent(), work.lent(), &mut rows)).answer).sum(),
            Timed::Copy(n) => {
                black_box(&mut out.bytes()[..n]).copy_from_slice(&self.image[..n]);
                0
            }
        };
        once();
        let began = Instant::now();
        for _ in 0..times {
            once();
        }
        Ok(began.elapsed().as_nanos() as u64)
    }
}

/// Each directory of a show by a call of its own: its listing stands behind those of the directories above it, `from` bytes into the output.
fn list_each(q: &Query, image: &[u8], icb: Icb, levels: u32, (out, from): (&mut Lending, usize), work: &mut Lending, rows: &mut Rows) {
    let list = Query { room: q.room - from, ..Query::on(Call::List, q.volume, icb).with(0, q.work) };
    let end = from + make(&list, image, out.lent().wrapping_add(from), work.lent(), rows).length as usize;
    let mut at = GUARD + from;
    while at < GUARD + end {
        let record = &out.bytes()[at..];
        let (is_directory, icb) = (record[2] == 1, Icb::of(record[3..19].try_into().unwrap()));
        at += 21 + usize::from(u16::from_le_bytes([record[19], record[20]]));
        if is_directory && levels > 1 {
            list_each(q, image, icb, levels - 1, (out, end), work, rows);
        }
    }
}

/// How many bytes of the output the answer has.
fn front(q: &Query, values: &Values) -> usize {
    let length = values.length as usize;
    match q.call {
        // The row came with figures, and is looked at whole.
        Call::Total => q.room_bytes(),
        call if !call.has_room() || values.answer != 0 => 0,
        Call::Extents => length.saturating_mul(16),
        Call::Survey => length.saturating_mul(8),
        _ => length,
    }
}

/// One call, and what held of the memory that was lent for it.
fn call(q: &Query, disc: &[u8], salt: u8) -> Given {
    let mut out = Lending::new(q.room_bytes(), salt);
    let mut work = Lending::new(if q.call.has_work() { q.work } else { 0 }, salt);
    let mut rows = Rows::of(q, salt);
    if q.call == Call::Total {
        out.put(&q.shelf);
    }
    let mut values = make(q, disc, out.lent(), work.lent(), &mut rows);
    let n = front(q, &values).min(out.length);
    values.written = out.bytes()[GUARD..GUARD + n].to_vec();
    let mut held = 0;
    held |= out.guarded() as u8;
    held |= (out.as_it_came(GUARD + n, GUARD + out.length) as u8) << 1;
    held |= (work.guarded() as u8) << 2;
    let end = GUARD + work.length;
    held |= (work.bytes()[GUARD..end].iter().all(|b| *b == 0) as u8) << 3;
    let items = match q.call {
        Call::ReadAll if values.answer == 0 => q.items().count(),
        Call::Survey if rows.has(&q.shelf) => q.shelf.len(),
        _ => 0,
    };
    values.rows = rows.front(items);
    held |= (rows.guarded() as u8) << 4 | (rows.as_they_came(items) as u8) << 5;
    Given { values, held }
}

/// The rows that are lent for a list of paths, or for a survey.
struct Rows {
    lengths: Lending,
    answers: Lending,
}

impl Rows {
    fn new([lengths, answers]: [usize; 2], salt: u8) -> Rows {
        Rows { lengths: Lending::new(lengths * 8, salt), answers: Lending::new(answers * 4, salt) }
    }

    /// Those of a query; a survey's has the lengths of the images.
    fn of(q: &Query, salt: u8) -> Rows {
        let mut rows = Rows::new(q.places, salt);
        if q.call == Call::Survey {
            rows.lengths.put(&q.shelf);
        }
        rows
    }

    /// Whether the row of lengths has these.
    fn has(&mut self, lengths: &[u64]) -> bool {
        self.lengths.bytes()[GUARD..].chunks_exact(8).zip(lengths).all(|(bytes, n)| bytes == n.to_le_bytes())
    }

    /// The lengths and the answers of so many paths, as far as there are places.
    fn front(&mut self, items: usize) -> Vec<(u64, u32)> {
        let items = items.min(self.lengths.length / 8).min(self.answers.length / 4);
        let lengths = self.lengths.bytes()[GUARD..].chunks_exact(8).map(|b| u64::from_le_bytes(b.try_into().unwrap()));
        let answers = self.answers.bytes()[GUARD..].chunks_exact(4).map(|b| u32::from_le_bytes(b.try_into().unwrap()));
        lengths.zip(answers).take(items).collect()
    }

    fn guarded(&mut self) -> bool {
        self.lengths.guarded() && self.answers.guarded()
    }

    fn as_they_came(&mut self, items: usize) -> bool {
        let behind = |row: &mut Lending, width: usize| row.as_it_came(GUARD + (items * width).min(row.length), GUARD + row.length);
        behind(&mut self.lengths, 8) && behind(&mut self.answers, 4)
    }
}

fn make(q: &Query, disc: &[u8], out: *mut u8, work: *mut u8, rows: &mut Rows) -> Values {
    let mut place = 0;
    let (lengths, answers) = (rows.lengths.lent().cast(), rows.answers.lent().cast());
    let (image, image_length, path) = (disc.as_ptr(), disc.len(), q.path.as_ptr());
    let lends = Lends { image, image_length, path, out, work, lengths, answers, place: &mut place };
    // SAFETY: lent pieces are as long as said, and don't overlap.
    unsafe { linked::make(q, lends) }
}
