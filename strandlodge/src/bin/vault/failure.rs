//! How the command ends when it can't do what it was asked.

use crate::json::Json;
use crate::names::shown;
use std::ffi::OsStr;
use std::io;
use std::os::unix::ffi::OsStrExt;
use strandlodge::{Diagnosis, Refusal};

/// Wrong usage.
pub const USAGE: u8 = 64;
/// A descriptor that isn't in place, or has a wrong body.
pub const WRONG: u8 = 65;
/// An image that can't be opened, mapped or copied.
pub const NO_IMAGE: u8 = 66;
/// Something that `check` couldn't read, or files that `get` couldn't have.
pub const UNREAD: u8 = 67;
/// More sectors than were lent, or more entries than can be kept.
pub const STOPPED: u8 = 68;
/// An answer number that isn't known.
pub const UNKNOWN: u8 = 70;
/// Output that can't be written.
pub const NO_OUTPUT: u8 = 74;

/// What to try where a body is wrong.
const TO_TRY: &str = "`vault check` lists the bad descriptors; without --checked they are used as they are";

/// The last number of the answer table.
const LAST: u8 = 16;

/// Where usage is said.
const HELP: &str = " (see `vault --help`)";

/// An exit status, and the sentence that goes to standard error.
#[derive(Debug)]
pub struct Failure {
    pub status: u8,
    pub says: Option<String>,
}

impl Failure {
    pub fn new(status: u8, says: impl Into<String>) -> Failure {
        Failure { status, says: Some(says.into()) }
    }

    pub fn usage(says: impl Into<String>) -> Failure {
        Failure::new(USAGE, format!("{}{HELP}", says.into()))
    }

    /// Wrong usage of a command, whose own help says how.
    pub fn of_command(mut self, command: Option<&str>) -> Failure {
        if let (Some(command), Some(says)) = (command, self.says.as_mut().filter(|says| says.ends_with(HELP))) {
            says.truncate(says.len() - HELP.len());
            *says += &format!(" (see `vault {command} --help`)");
        }
        self
    }

    /// `about` is what was asked for.
    pub fn refused(about: impl AsRef<str>, refused: impl Into<Refusal>) -> Failure {
        let why = refused.into();
        Failure::with_number(why, format!("{}: {why}", about.as_ref()))
    }

    /// A refusal with its cause, as far as that is known, and the last sector that was asked for.
    pub fn diagnosed(about: impl AsRef<str>, diagnosis: &Diagnosis) -> Failure {
        Failure::with_number(diagnosis.refused, format!("{}: {}", about.as_ref(), diagnosis.what())).at(diagnosis)
    }

    /// With the last sector that was asked for behind what is said.
    pub fn at(mut self, diagnosis: &Diagnosis) -> Failure {
        if let (Some(says), Some(place)) = (&mut self.says, diagnosis.place) {
            *says += &format!("; {place}");
        }
        self
    }

    /// A refusal with its number behind the sentence, and what to try. The number is the status, where it is one of the table.
    pub fn with_number(refused: impl Into<Refusal>, says: String) -> Failure {
        match refused.into() {
            Refusal::Unknown(_) => Failure::new(UNKNOWN, says),
            why @ Refusal::BadCrc => Failure::new(why.number() as u8, format!("{says} (refusal {}); {TO_TRY}", why.number())),
            why => Failure::new(why.number() as u8, format!("{says} (refusal {})", why.number())),
        }
    }

    /// For a document. The answer is the number of the refusal, where it is one.
    pub fn json(&self) -> Json {
        let is_refusal = (1..=LAST).contains(&self.status);
        Json::Object(vec![
            ("answer", Json::maybe(is_refusal.then_some(self.status), Json::number)),
            ("status", Json::number(self.status)),
            ("says", Json::maybe(self.says.as_ref(), Json::text)),
        ])
    }

    /// A refusal that more of the image may undo: its number is the status.
    pub fn may_pass(&self) -> bool {
        u64::from(self.status) == Refusal::Io.number()
    }

    /// Standard output that can't be written. A reader that has had enough is no failure.
    pub fn output(error: io::Error) -> Failure {
        match error.kind() {
            io::ErrorKind::BrokenPipe => Failure { status: 0, says: None },
            _ => Failure::new(NO_OUTPUT, format!("can't write to standard output: {error}")),
        }
    }

    pub fn file(status: u8, name: &OsStr, says: impl std::fmt::Display) -> Failure {
        Failure::new(status, format!("{}: {says}", shown(name.as_bytes())))
    }
}

#[cfg(test)]
mod tests {
    use super::*;
    use strandlodge::Refused;

    #[test]
    fn the_number_is_the_status() {
        let failure = Failure::refused("a.img", Refused { why: Refusal::NoWork, sectors: 3 });
        assert_eq!(failure.status, 6);
        assert_eq!(failure.says.unwrap(), "a.img: not enough memory for a directory (in a show: together with those above it) (refusal 6)");
    }

    #[test]
    fn a_wrong_body_has_a_way_out() {
        let failure = Failure::refused("a.img", Refused { why: Refusal::BadCrc, sectors: 3 });
        let says = failure.says.unwrap();
        assert_eq!(failure.status, 10);
        assert!(says.starts_with("a.img: a descriptor fails its CRC check") && says.contains("(refusal 10); `vault check`"), "{says}");
    }

    /// 256 would be a status of 0, and 320 that of wrong usage.
    #[test]
    fn an_unknown_number_is_no_status() {
        for number in [8, 256, 320] {
            let failure = Failure::refused("a.img", Refused { why: Refusal::Unknown(number), sectors: 3 });
            assert_eq!(failure.status, UNKNOWN);
            assert_eq!(failure.says.unwrap(), format!("a.img: the archive gave the unknown answer {number}"));
        }
    }
}
