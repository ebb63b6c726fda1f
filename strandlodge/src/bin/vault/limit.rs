//! How many sectors a command may ask for of one image: a disc that was made to do harm may have more paths than could ever be walked.

use crate::failure::{Failure, STOPPED};
use strandlodge::{SECTOR_SIZE, UNLIMITED};

/// What the command line says of it.
#[derive(Debug, Clone, Copy, PartialEq, Eq, Default)]
pub enum Limit {
    /// Nothing: what a sound disc of the image's length can want.
    #[default]
    Usual,
    /// `--limit N`.
    Most(u64),
    /// `--no-limit`.
    None,
}

impl Limit {
    /// The sectors that are lent to an image of so many bytes.
    ///
    /// A survey asks for a sector of a sound disc once, `check` for one of a directory three times, and `ls -R -l` for it three times and shows it; but a file with
    /// several names is read once for each. So the usual limit is four times the image's sectors, and half a million more for small discs with many
    /// such names. A survey goes through a million sectors of directories in a second: a small disc that was made to do harm takes half of one.
    pub fn of(self, bytes: u64) -> u64 {
        match self {
            Limit::Usual => (bytes / SECTOR_SIZE).saturating_mul(4).saturating_add(500_000),
            Limit::Most(most) => most,
            Limit::None => UNLIMITED,
        }
    }
}

/// Fails where more sectors were asked for than were lent; `so` is what came of it.
pub fn see(name: &str, most: u64, asked: u64, so: &str) -> Result<(), Failure> {
    if asked > most { Err(Failure::new(STOPPED, stopped(name, most, so))) } else { Ok(()) }
}

/// What is said of an image that wants more: that it was stopped, what came of it, and what to do.
pub fn stopped(name: &str, most: u64, so: &str) -> String {
    let cure = "The disc may be malicious. Use --limit N for another limit, or --no-limit for none.";
    format!("{name}: stopped after {most} sectors, the limit{so}. {cure}")
}

#[cfg(test)]
mod tests {
    use super::*;

    #[test]
    fn what_is_lent_goes_with_the_image() {
        assert_eq!([0, 2047, 2048, 622_592].map(|bytes| Limit::Usual.of(bytes)), [500_000, 500_000, 500_004, 501_216]);
        assert_eq!((Limit::Usual.of(u64::MAX), Limit::Most(7).of(u64::MAX), Limit::None.of(0)), ((1 << 55) - 4 + 500_000, 7, u64::MAX));
    }

    #[test]
    fn as_many_as_are_lent_may_be_asked_for() {
        assert!(see("a.img", 7, 7, "").is_ok() && see("a.img", u64::MAX, u64::MAX, "").is_ok());
        let failure = see("a.img", 7, 8, "; so it is").unwrap_err();
        let says = "a.img: stopped after 7 sectors, the limit; so it is. The disc may be malicious. Use --limit N for another limit, or --no-limit for none.";
        assert_eq!((failure.status, failure.says.as_deref()), (STOPPED, Some(says)));
    }
}
