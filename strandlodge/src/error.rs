//! The error of a call of `Disc` or `Drive`: a refusal with its cause, or a system error.

use crate::answer::{Refusal, Refused};
use crate::cause::Cause;
use crate::counted_drive::{Uncopied, Unopened};
use crate::diagnosis::Diagnosis;
use std::ops::Deref;
use std::{error, fmt, io};

/// The result of a call of [`Disc`](crate::Disc) or [`Drive`](crate::Drive), and of functions that make such calls.
pub type Result<T> = std::result::Result<T, Error>;

/// A refusal, or a system error, so that `?` works for both, as it does with the original's error.
///
/// It dereferences to its [`Refused`]: `error.why`, `error.sectors` and `error.number()` are those of the refusal, and
/// you can pass a `&Error` as a `&Refused`. A system error is [`Refusal::Io`] with no sector asked for. `Display`
/// prints the cause if it is known, otherwise the meaning of the number. The calls of [`Disc`](crate::Disc) find the
/// cause by themselves. Those of [`Drive`](crate::Drive) would have to ask the reader again; use
/// [`Drive::diagnose`](crate::Drive::diagnose) for that.
///
/// ```
/// use strandlodge::{Result, Disc};
///
/// fn load(image: &str, cue: &str) -> Result<Vec<u8>> {
///     let disc = Disc::open(std::fs::read(image)?)?;
///     disc.read_path(cue)
/// }
///
/// let error = load("no such file", "SHOW/9").unwrap_err();
/// assert_eq!((error.number(), error.io().is_some()), (1, true));
/// ```
pub struct Error(Box<Why>);

struct Why {
    refused: Refused,
    cause: Option<Cause>,
    error: Option<io::Error>,
}

impl Error {
    /// A refusal with its cause.
    pub(crate) fn caused(refused: Refused, cause: Option<Cause>) -> Error {
        Error(Box::new(Why { refused, cause, error: None }))
    }

    fn failed(refused: Refused, error: io::Error) -> Error {
        Error(Box::new(Why { refused, cause: None, error: Some(error) }))
    }

    /// The refusal; for a system error, 1 with no sector asked for.
    pub fn refused(&self) -> Refused {
        self.0.refused
    }

    /// The cause of the refusal if it is known, as `diagnose` gives it.
    pub fn cause(&self) -> Option<&Cause> {
        self.0.cause.as_ref()
    }

    /// The system error, if a file or a reader failed.
    pub fn io(&self) -> Option<&io::Error> {
        self.0.error.as_ref()
    }
}

impl Deref for Error {
    type Target = Refused;

    fn deref(&self) -> &Refused {
        &self.0.refused
    }
}

impl fmt::Debug for Error {
    fn fmt(&self, f: &mut fmt::Formatter<'_>) -> fmt::Result {
        let Why { refused, cause, error } = &*self.0;
        f.debug_struct("Error").field("refused", refused).field("cause", cause).field("error", error).finish()
    }
}

impl fmt::Display for Error {
    fn fmt(&self, f: &mut fmt::Formatter<'_>) -> fmt::Result {
        match &*self.0 {
            Why { error: Some(error), .. } => error.fmt(f),
            Why { cause: Some(cause), .. } => cause.fmt(f),
            Why { refused, .. } => refused.fmt(f),
        }
    }
}

impl error::Error for Error {
    /// The meaning of the refusal's number, if `Display` printed the cause instead.
    fn source(&self) -> Option<&(dyn error::Error + 'static)> {
        match &*self.0 {
            Why { error: Some(error), .. } => error.source(),
            Why { cause: Some(_), refused, .. } => Some(refused),
            _ => None,
        }
    }
}

/// Two errors are equal if their refusals are.
impl PartialEq for Error {
    fn eq(&self, other: &Error) -> bool {
        self.0.refused == other.0.refused
    }
}

impl From<io::Error> for Error {
    fn from(error: io::Error) -> Error {
        Error::failed(Refused { why: Refusal::Io, sectors: 0 }, error)
    }
}

impl From<Refused> for Error {
    fn from(refused: Refused) -> Error {
        Error::caused(refused, None)
    }
}

/// For a call that asks for no sector, such as [`write`](crate::write()).
impl From<Refusal> for Error {
    fn from(why: Refusal) -> Error {
        Error::from(Refused { why, sectors: 0 })
    }
}

impl From<Diagnosis> for Error {
    fn from(diagnosis: Diagnosis) -> Error {
        Error::caused(diagnosis.refused, diagnosis.cause)
    }
}

/// Keeps what the reader reported for the sector that it could not read.
impl<R> From<Unopened<R>> for Error {
    fn from(unopened: Unopened<R>) -> Error {
        match unopened.missed {
            Some(missed) => Error::failed(unopened.refused, io::Error::new(missed.error.kind(), missed.to_string())),
            None => Error::from(unopened.refused),
        }
    }
}

impl From<Uncopied> for Error {
    fn from(uncopied: Uncopied) -> Error {
        match uncopied {
            Uncopied::Refused { refused, .. } => Error::from(refused),
            Uncopied::Output(error) => Error::from(error),
        }
    }
}

impl From<Error> for Refused {
    fn from(error: Error) -> Refused {
        error.0.refused
    }
}

impl From<Error> for Refusal {
    fn from(error: Error) -> Refusal {
        error.0.refused.why
    }
}
