//! Rounds by turns over what is raced: one thread flips, this one calls.

use crate::asks::{Ask, Flipped, Lender, asks};
use crate::faults;
use crate::flips::{Flip, Of, keep_flipping};
use crate::memory::{Side, Store};
use crate::stage::Raced;
use crate::writes::{self, Writer, Written};
use crate::{images, lists};
use common::calls::Call;
use common::random::Random;
use std::process::exit;
use std::sync::atomic::AtomicBool;
use std::sync::atomic::Ordering::Relaxed;
use std::thread;
use std::time::{Duration, Instant};

/// How long one thing is flipped at a time.
const ROUND: Duration = Duration::from_millis(10);

/// How long a value stands: mostly no longer than the store takes.
const PAUSES: [u32; 4] = [0, 0, 20, 400];

/// Beyond its time by so many seconds, a call must have been stuck.
const GRACE: u32 = 60;

struct Options {
    seconds: u32,
    seed: u64,
    flip: String,
}

fn options() -> Option<Options> {
    let mut o = Options { seconds: 20, seed: 1, flip: String::new() };
    let mut words = std::env::args().skip(1);
    while let Some(word) = words.next() {
        let next = words.next()?;
        match word.as_str() {
            "--seconds" => o.seconds = next.parse().ok()?,
            "--seed" => o.seed = next.parse().ok()?,
            "--flip" => o.flip = next,
            _ => return None,
        }
    }
    Some(o)
}

/// An image with all that is asked of it, and which of that is next.
struct Subject {
    raced: Raced,
    asks: Vec<Ask>,
    next: usize,
}

/// What is raced: calls on an image, or the writer.
enum Turn {
    Read(Subject),
    Write(Written),
}

#[derive(Default)]
struct Figures {
    calls: [u64; Call::ALL.len()],
    /// Of the writer, each with a total.
    writes: u64,
    flips: u64,
    /// Answers that neither state gives while it stands still.
    of_neither: u64,
}

struct Race {
    images: Store,
    /// Paths and rows that are flipped.
    found: Store,
    lender: Lender,
    writer: Writer,
    random: Random,
    figures: Figures,
}

pub fn main() {
    let Some(o) = options() else {
        eprintln!("usage: race [--seconds N] [--seed S] [--flip WORDS]");
        exit(2);
    };
    faults::watch(o.seconds + GRACE);
    let mut race = Race::new(o.seed);
    let mut turns = race.turns(&o.flip).unwrap_or_else(|seen| faults::fail(&seen));
    if turns.is_empty() {
        eprintln!("race: there is no such flip");
        names().iter().for_each(|name| eprintln!("{name}"));
        exit(2);
    }
    faults::begin();
    let until = Instant::now() + Duration::from_secs(o.seconds.into());
    while Instant::now() < until {
        let first = race.random.below(turns.len());
        turns.rotate_left(first);
        for turn in turns.iter_mut().take_while(|_| Instant::now() < until) {
            let done = match turn {
                Turn::Read(subject) => race.round(subject),
                Turn::Write(written) => race.write_round(written),
            };
            done.unwrap_or_else(|seen| faults::fail(&seen));
        }
    }
    println!("race: {}, by {} flips in {} seconds, seed {}", race.figures.line(), turns.len(), o.seconds, o.seed);
}

/// The names of all flips.
fn names() -> Vec<String> {
    let reads = images::all().into_iter().chain(lists::all()).map(|raced| raced.name);
    reads.chain(writes::all().iter().map(|written| written.name.to_string())).collect()
}

impl Race {
    fn new(seed: u64) -> Race {
        let (images, found) = (Store::default(), Store::default());
        Race { images, found, lender: Lender::default(), writer: Writer::default(), random: Random::new(seed), figures: Figures::default() }
    }

    /// Everything that is raced and has these words in its name.
    fn turns(&mut self, words: &str) -> Result<Vec<Turn>, String> {
        let mut turns = Vec::new();
        let still = |name: &str, seen: String| format!("standing still, {name}: {seen}");
        for raced in images::all().into_iter().chain(lists::all()).filter(|raced| raced.name.contains(words)) {
            let asks = asks(&raced, &mut self.lender).map_err(|seen| still(&raced.name, seen))?;
            turns.push(Turn::Read(Subject { raced, asks, next: 0 }));
        }
        for written in writes::all().into_iter().filter(|written| written.name.contains(words)) {
            let name = written.name;
            turns.push(Turn::Write(written.with_rooms(&mut self.writer).map_err(|seen| still(name, seen))?));
        }
        Ok(turns)
    }

    /// Flips an image, or what else is lent, for a while, and makes as many calls as that gives time for.
    fn round(&mut self, subject: &mut Subject) -> Result<(), String> {
        let sides = [Side::Left, Side::Right];
        let (side, found_side, pause) = (*self.random.pick(&sides), *self.random.pick(&sides), *self.random.pick(&PAUSES));
        let (flip, flipped) = (subject.raced.flip, subject.raced.flipped());
        let mut image = self.images.piece(subject.raced.image.len(), side);
        image.bytes().copy_from_slice(&subject.raced.image);
        let mut found = self.found.piece(if flip.of == Of::Image { 0 } else { flipped.len() }, found_side);
        found.bytes().iter_mut().zip(&flipped).for_each(|(to, byte)| *to = *byte);
        let (lent, found_at) = ((image.at().cast_const(), image.length), (flip.of != Of::Image).then_some(found.at()));
        let start = found_at.unwrap_or(image.at());
        let (lender, random, figures) = (&mut self.lender, &mut self.random, &mut self.figures);
        flipping(flip, start, pause, figures, |figures| calls(subject, lent, found_at, lender, random, figures))?;
        for (name, piece, before) in [("image", &mut image, &subject.raced.image[..]), ("path, or the row,", &mut found, &flipped)] {
            let length = piece.length;
            if piece.touched(length).is_some() || piece.bytes() != &before[..length] {
                return Err(format!("the {name} was written to, in this call or one before it by the same flip"));
            }
            piece.restore(length);
        }
        Ok(())
    }

    /// Flips names or lengths for a while, and writes as often as that gives time for.
    fn write_round(&mut self, written: &mut Written) -> Result<(), String> {
        let pause = *self.random.pick(&PAUSES);
        let (random, figures) = (&mut self.random, &mut self.figures);
        let Writer { names, lengths, staging, image } = &mut self.writer;
        let mut lent = written.lend(names, lengths, staging, random.next());
        let (found, start) = (lent.found(), lent.flipped(written.flip.of));
        flipping(written.flip, start, pause, figures, |figures| {
            let until = Instant::now() + ROUND;
            while Instant::now() < until {
                let is_of_either = written.write(found, image, random.next())?;
                figures.writes += 1;
                figures.of_neither += u64::from(!is_of_either);
            }
            Ok::<(), String>(())
        })?;
        lent.hand_back(written)
    }
}

/// Does something while another thread flips.
fn flipping<T>(flip: Flip, start: *mut u8, pause: u32, figures: &mut Figures, work: impl FnOnce(&mut Figures) -> T) -> T {
    let (going, stop) = (AtomicBool::new(false), AtomicBool::new(false));
    let place = start.expose_provenance();
    thread::scope(|scope| {
        let flipper = scope.spawn(|| {
            going.store(true, Relaxed);
            // SAFETY: the bytes are there as long as the scope is, and are looked at by the archive alone.
            unsafe { keep_flipping(flip, std::ptr::with_exposed_provenance_mut(place), pause, &stop) }
        });
        while !going.load(Relaxed) {
            thread::yield_now();
        }
        let done = work(figures);
        stop.store(true, Relaxed);
        figures.flips += flipper.join().unwrap_or(0);
        done
    })
}

/// Calls by turns for the time of a round.
fn calls(
    subject: &mut Subject,
    image: (*const u8, usize),
    found: Option<*mut u8>,
    lender: &mut Lender,
    random: &mut Random,
    figures: &mut Figures,
) -> Result<(), String> {
    let until = Instant::now() + ROUND;
    while Instant::now() < until {
        let ask = &subject.asks[subject.next];
        subject.next = (subject.next + 1) % subject.asks.len();
        faults::about(ask.words);
        let flipped = Flipped { image, found: found.map(|at| (at, &ask.other)) };
        let values = lender.ask(&ask.query, flipped, random.next())?;
        figures.calls[ask.query.call as usize] += 1;
        figures.of_neither += u64::from(!ask.is_of_either(&values));
    }
    Ok(())
}

impl Figures {
    fn line(&self) -> String {
        let by_call: Vec<String> = Call::ALL.iter().map(|call| format!("{} {}", call.name(), self.calls[*call as usize])).collect();
        let all: u64 = self.calls.iter().sum();
        let (flips, of_neither) = (self.flips, self.of_neither);
        format!(
            "calls {all} ({}), images written {}, flips {flips}, answers of neither state {of_neither}",
            by_call.join(", "),
            self.writes
        )
    }
}
