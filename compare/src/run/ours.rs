//! Our side: the archive, behind whichever way there is to call it.

use super::calls::{Given, Query};
use super::raw::{RawAsk, RawGiven};
use super::steps::{StepAsk, StepGiven};

/// What stands in the sectors that a call must not look at.
#[derive(Clone, Copy)]
pub enum Noise {
    /// Bytes at random.
    Random(u32),
    /// The sector so many behind it, which looks like something.
    Shifted(u32),
}

pub struct Ask<'q> {
    pub query: &'q Query,
    /// The sectors that the image keeps; every other is noise. Nothing: the image as it is.
    pub kept: Option<&'q [u64]>,
    /// Tells the pattern that lent memory comes full of.
    pub salt: u8,
}

#[derive(Clone, Copy)]
pub enum Timed<'q> {
    Query(&'q Query),
    /// The paths of a list, or the directories of a show, each by a call of its own.
    Each(&'q Query),
    Copy(usize),
}

pub trait Ours {
    /// The image that is asked about from now on.
    fn load(&mut self, image: &[u8], noise: Noise);

    /// The answers, in order; an error where our side stopped without them.
    fn answers(&mut self, asks: &[Ask]) -> std::io::Result<Vec<Given>>;

    /// The same for calls on raw records.
    fn raws(&mut self, asks: &[&RawAsk]) -> std::io::Result<Vec<RawGiven>>;

    /// The same for openings and reads a sector at a time.
    fn steps(&mut self, asks: &[&StepAsk]) -> std::io::Result<Vec<StepGiven>>;

    /// The nanoseconds that a query takes, so many times over, with memory that is warm; with no query, a copy of so many bytes.
    fn time(&mut self, timed: Timed, times: u32) -> std::io::Result<u64>;
}
