//! A progress bar on standard error, a word before it, and a line while something is waited for.

use std::io::{self, IsTerminal, Write};
use std::time::{Duration, Instant};

/// What is written at once by any disc needs no bar.
const LARGE: u64 = 32 << 20;

/// The signs of the bar itself.
const WIDTH: usize = 40;

/// Clears the line.
const WIPE: &str = "\r\x1b[K";

/// Drawn only for what is large, and only on a terminal. It is wiped when dropped.
pub struct Bar {
    total: u64,
    done: u64,
    since: Instant,
    drawn: Option<u64>,
    on: bool,
}

impl Bar {
    pub fn new(total: u64) -> Bar {
        Bar { total, done: 0, since: Instant::now(), drawn: None, on: total >= LARGE && io::stderr().is_terminal() }
    }

    /// So many bytes more are written. Drawn anew where the percentage is another.
    pub fn add(&mut self, bytes: u64) {
        self.done = self.done.saturating_add(bytes);
        let percent = percent(self.done, self.total);
        if self.on && self.drawn != Some(percent) {
            draw(&format!("{WIPE}{}", drawing(self.done, self.total, self.since.elapsed())));
            self.drawn = Some(percent);
        }
    }

    /// Before anything else is written to the terminal.
    pub fn wipe(&mut self) {
        if self.drawn.take().is_some() {
            draw(WIPE);
        }
    }
}

impl Drop for Bar {
    fn drop(&mut self) {
        self.wipe();
    }
}

/// A word that stands on a terminal while a call runs: a drive may take a while, and a call can't be looked into.
pub struct Word(bool);

impl Word {
    pub fn new(word: &str) -> Word {
        let on = io::stderr().is_terminal();
        if on {
            draw(&format!("\r{word}"));
        }
        Word(on)
    }
}

impl Drop for Word {
    fn drop(&mut self) {
        if self.0 {
            draw(WIPE);
        }
    }
}

/// A line that stands on a terminal while something is waited for.
#[derive(Default)]
pub struct Line(String);

impl Line {
    /// Drawn anew where it is another.
    pub fn say(&mut self, text: String) {
        if io::stderr().is_terminal() && self.0 != text {
            draw(&format!("{WIPE}{text}"));
            self.0 = text;
        }
    }

    /// Before anything else is written to the terminal.
    pub fn wipe(&mut self) {
        if !self.0.is_empty() {
            draw(WIPE);
            self.0.clear();
        }
    }
}

impl Drop for Line {
    fn drop(&mut self) {
        self.wipe();
    }
}

/// What takes no longer needs no count, nor a newer one.
const SOON: Duration = Duration::from_millis(500);

/// How many there are so far, on a terminal, of what takes a while. Where the answer itself goes to a terminal it is seen there.
pub struct Count {
    what: &'static str,
    since: Instant,
    on: bool,
    drawn: bool,
}

impl Count {
    pub fn new(what: &'static str) -> Count {
        Count { what, since: Instant::now(), on: io::stderr().is_terminal() && !io::stdout().is_terminal(), drawn: false }
    }

    /// There are `n`. Drawn anew each half second.
    pub fn at(&mut self, n: u64) {
        if self.on && self.since.elapsed() >= SOON {
            draw(&format!("\r{n} {}", self.what));
            (self.since, self.drawn) = (Instant::now(), true);
        }
    }
}

impl Drop for Count {
    fn drop(&mut self) {
        if self.drawn {
            draw(WIPE);
        }
    }
}

fn draw(text: &str) {
    let mut error = io::stderr();
    let _ = error.write_all(text.as_bytes()).and_then(|()| error.flush());
}

fn percent(done: u64, total: u64) -> u64 {
    (u128::from(done) * 100 / u128::from(total.max(1))) as u64
}

/// The bar, how much is done, and how long the rest takes if it goes on so.
fn drawing(done: u64, total: u64, since: Duration) -> String {
    let percent = percent(done, total);
    let full = percent.min(100) as usize * WIDTH / 100;
    let bar = format!("[{}{}] {percent:3}%", "#".repeat(full), ".".repeat(WIDTH - full));
    format!("{bar}, {} of {} MiB, {} left", done >> 20, total >> 20, time(left(done, total, since)))
}

/// In seconds.
fn left(done: u64, total: u64, since: Duration) -> u64 {
    let rest = u128::from(total.saturating_sub(done)) * since.as_millis() / u128::from(done.max(1));
    u64::try_from(rest.div_ceil(1000)).unwrap_or(u64::MAX)
}

fn time(seconds: u64) -> String {
    match seconds {
        0..100 => format!("{seconds} s"),
        100..6000 => format!("{} min", seconds.div_ceil(60)),
        _ => format!("{} h", seconds.div_ceil(3600)),
    }
}

#[cfg(test)]
mod tests {
    use super::*;

    #[test]
    fn the_bar_fills() {
        let drawn = |done| drawing(done, LARGE, Duration::from_secs(10));
        assert_eq!(drawn(0), format!("[{}]   0%, 0 of 32 MiB, {} h left", ".".repeat(40), (10u64 * (32 << 20)).div_ceil(3600)));
        assert_eq!(drawn(LARGE / 2), format!("[{}{}]  50%, 16 of 32 MiB, 10 s left", "#".repeat(20), ".".repeat(20)));
        assert_eq!(drawn(LARGE), format!("[{}] 100%, 32 of 32 MiB, 0 s left", "#".repeat(40)));
        // More than was said comes too.
        assert!(drawn(2 * LARGE).contains("] 200%, 64 of 32 MiB, 0 s left"));
    }

    #[test]
    fn percentages_are_of_the_whole() {
        assert_eq!((percent(0, 3), percent(1, 3), percent(3, 3)), (0, 33, 100));
        assert_eq!((percent(0, 0), percent(u64::MAX, u64::MAX)), (0, 100));
    }

    #[test]
    fn the_time_left_goes_by_the_time_so_far() {
        let of = |done, seconds| left(done, 1000, Duration::from_secs(seconds));
        assert_eq!((of(1, 1), of(500, 7), of(999, 999), of(1000, 5), of(2000, 5)), (999, 7, 1, 0, 0));
        assert_eq!((time(0).as_str(), time(99).as_str(), time(100).as_str(), time(6000).as_str()), ("0 s", "99 s", "2 min", "2 h"));
    }
}
