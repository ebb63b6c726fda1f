//! `--wait`: a file of an image that is still being copied, from its front to its back.
//!
//! A look is a whole one, at the bytes that are there by then, and nothing is kept from one to the next. More bytes at the end of an image change
//! nothing but a refusal by 1 (docs/PROMISES.md): so that is what is waited on, and anything else is the end of it. What `map` relies on is kept
//! by such a copy: the bytes of a map stand still, since they were written before it was made.

use crate::bar::Line;
use crate::failure::{Failure, NO_IMAGE};
use crate::image::{self, Image};
use crate::steps::{Rule, Step, names};
use crate::wanted::Wanted;
use std::ffi::OsStr;
use std::time::{Duration, Instant};
use strandlodge::{Counted, How, SECTOR_SIZE};

/// Between two looks at the image's length.
const PAUSE: Duration = Duration::from_millis(50);

/// The sector that opening asks for first.
const ANCHOR: u64 = 256;

/// Looks at an image, and again whenever it has grown to what was missing, until that isn't refused by 1 or the seconds are over.
pub fn until<T>(
    seconds: u32,
    name: &OsStr,
    copied: bool,
    missing: impl Fn(&[u8]) -> Option<u64>,
    mut look: impl FnMut(&[u8]) -> Result<T, Failure>,
) -> Result<T, Failure> {
    let end = Instant::now() + Duration::from_secs(seconds.into());
    let mut growing = Growing { name, there: 0, end, line: Line::default() };
    loop {
        let image = Image::open(name, copied)?;
        growing.seen(image.len())?;
        let refused = match look(&image) {
            Err(failure) if failure.may_pass() => failure,
            ended => return ended,
        };
        let missing = missing(&image);
        drop(image);
        if !growing.wait(missing)? {
            let says = refused.says.unwrap_or_default();
            return Err(Failure::new(refused.status, format!("{says}; waited {seconds} s: {}", state(growing.there, missing))));
        }
    }
}

/// An image that grows, and how many bytes of it were seen.
struct Growing<'a> {
    name: &'a OsStr,
    there: usize,
    end: Instant,
    line: Line,
}

impl Growing<'_> {
    /// Waits until a sector is there, or where it isn't known which, one more; false where the time is over before.
    fn wait(&mut self, missing: Option<u64>) -> Result<bool, Failure> {
        let enough = enough(self.there, missing);
        while self.there < enough {
            self.line.say(state(self.there, missing));
            let left = self.end.saturating_duration_since(Instant::now());
            if left.is_zero() {
                return Ok(false);
            }
            std::thread::sleep(PAUSE.min(left));
            self.seen(image::length(self.name)?)?;
        }
        self.line.wipe();
        Ok(true)
    }

    /// Of an image that shrinks nothing is known of what was seen of it.
    fn seen(&mut self, length: usize) -> Result<(), Failure> {
        if length < self.there {
            let says = format!("the image shrank from {} to {length} bytes: it is not being copied from front to back", self.there);
            return Err(Failure::file(NO_IMAGE, self.name, says));
        }
        self.there = length;
        Ok(())
    }
}

/// The length with which a look is worth while.
fn enough(there: usize, missing: Option<u64>) -> usize {
    let next = there as u64 / SECTOR_SIZE;
    usize::try_from(missing.unwrap_or(next).max(next).saturating_add(1).saturating_mul(SECTOR_SIZE)).unwrap_or(usize::MAX)
}

fn state(there: usize, missing: Option<u64>) -> String {
    let what = missing.map_or("a sector that is needed".to_string(), |sector| format!("sector {sector}"));
    format!("{} sectors are there; {what} is not there yet", there as u64 / SECTOR_SIZE)
}

/// The sector for want of which the file that is asked for is refused by 1, where it can be named.
pub fn missing(image: &[u8], how: How, matching: Rule, wanted: &Wanted) -> Option<u64> {
    let vault = match Counted::open_as(image, how) {
        Ok(vault) => vault.value,
        Err(refused) => return (refused.may_pass() && refused.sectors == 1).then_some(ANCHOR),
    };
    let (mut icb, path) = match wanted {
        Wanted::Path(path) => (vault.root_directory_icb(), &path[..]),
        Wanted::Icb(icb) => (icb.long_ad(), &b""[..]),
    };
    for name in names(path) {
        icb = match vault.read_directory(icb) {
            Ok(entries) => Step::new(name, entries.value).taken(matching)?.icb,
            Err(refused) => return vault.missing_sector(icb, &refused),
        };
    }
    let refused = vault.runs(icb).err()?;
    vault.missing_sector(icb, &refused)
}

#[cfg(test)]
mod tests {
    use super::*;

    #[test]
    fn a_look_is_worth_while_once_the_sector_is_there() {
        assert_eq!([0, 1, 2047, 2048].map(|there| enough(there, None)), [2048, 2048, 2048, 4096]);
        assert_eq!([0, 2048, 5000].map(|there| enough(there, Some(5))), [6 * 2048; 3]);
        assert_eq!(enough(0, Some(u64::MAX - 1)), usize::MAX);
        // What was missing is there by now: another is waited for.
        assert_eq!(enough(4096, Some(0)), 3 * 2048);
    }

    #[test]
    fn what_is_there_is_said_in_sectors() {
        assert_eq!(state(5000, Some(300)), "2 sectors are there; sector 300 is not there yet");
        assert_eq!(state(0, None), "0 sectors are there; a sector that is needed is not there yet");
    }
}
