//! Figures over a shelf of images.

use crate::answer::Refusal;
use crate::calls;
use crate::how::How;
use crate::room::{FIRST, MOST_DIRECTORY, Room};
use std::fmt;
use strandlodge_sys::vault::{DONE, FIGURES, OVER_BUDGET};

/// The number of answers: 0 and the refusals.
const ANSWERS: usize = OVER_BUDGET as usize + 1;

/// The number of figures before those by answer; the chain comes after them.
const FRONT: usize = 5;

type Row = [u64; FIGURES];

/// A figure: a number of any size, given up to 64 bits.
#[derive(Debug, Clone, Copy, PartialEq, Eq, Hash, Default)]
pub struct Figure {
    /// At most 2^64 - 1.
    pub number: u64,
    /// Whether the figure exceeds 2^64 - 1.
    pub over: bool,
}

impl Figure {
    /// Whether the figure is 0.
    pub fn is_zero(self) -> bool {
        self == Figure::default()
    }
}

impl From<u64> for Figure {
    fn from(number: u64) -> Figure {
        Figure { number, over: false }
    }
}

/// Prints the number, or `over`.
impl fmt::Display for Figure {
    fn fmt(&self, f: &mut fmt::Formatter<'_>) -> fmt::Result {
        if self.over { f.pad("over") } else { self.number.fmt(f) }
    }
}

/// The figures of an image or of a shelf. Files and directories are those that [`Disc::show`](crate::Disc::show) lists
/// at 16 levels, each counted once for each path. The root is not counted.
#[derive(Debug, Clone, Copy, PartialEq, Eq, Hash, Default)]
pub struct Figures {
    /// Files found, including those that can't be read.
    pub files: Figure,
    /// Directories.
    pub directories: Figure,
    /// The sum of the bytes of the files that can be read.
    pub bytes: Figure,
    /// Their extents, as [`Disc::extents`](crate::Disc::extents) lists them.
    pub extents: Figure,
    /// The sectors that reading each file asks for, including files that are refused. Not included are the sectors of
    /// opening, of the tree and of the extent lists.
    pub sectors: Figure,
    /// How many files have each answer; 0 is for those that can be read.
    pub files_by_answer: [Figure; ANSWERS],
    /// How many images have each answer, of their opening or their tree; or 16, if these and the reads of the files
    /// together need more sectors than the budget. An image with an answer other than 0 has no other figure. No file
    /// has 16.
    pub images_by_answer: [Figure; ANSWERS],
    /// The largest number of continuations of allocation descriptors that were followed for a file that can be read.
    pub chain: Figure,
}

impl Figures {
    /// The number of numbers in a place of a row: two for each figure.
    pub const NUMBERS: usize = FIGURES;

    /// The figures as the numbers of a row (docs/RULES.md, 16.3): for each figure its number, then 1 if it is over,
    /// otherwise 0.
    pub fn numbers(&self) -> [u64; Figures::NUMBERS] {
        let mut numbers = [0; FIGURES];
        numbers.iter_mut().zip(self.place()).for_each(|(to, number)| *to = number);
        numbers
    }

    /// The figures with these numbers, as [`Figures::numbers`] gives them. With both you can store figures, or send
    /// them elsewhere, and add them up with [`survey_total`].
    ///
    /// ```
    /// use strandlodge::{Figures, How, UNLIMITED, survey_image};
    /// let figures = survey_image(b"no disc", How::default(), UNLIMITED);
    /// assert_eq!(Figures::of_numbers(&figures.numbers()), figures);
    /// ```
    pub fn of_numbers(numbers: &[u64; Figures::NUMBERS]) -> Figures {
        Figures::of(numbers)
    }

    /// Why an image was not surveyed; for a shelf, the lowest such number. `None` if every image was surveyed.
    pub fn refusal(&self) -> Option<Refusal> {
        refused(&self.images_by_answer).next().map(|(why, _)| why)
    }

    /// How many files have this refusal.
    pub fn files_refused(&self, why: Refusal) -> Figure {
        by(&self.files_by_answer, why)
    }

    /// How many images have this refusal.
    pub fn images_refused(&self, why: Refusal) -> Figure {
        by(&self.images_by_answer, why)
    }

    /// Each refusal of a file, in order of its number, and how many files have it.
    pub fn refused_files(&self) -> impl Iterator<Item = (Refusal, Figure)> + '_ {
        refused(&self.files_by_answer)
    }

    /// Each refusal of an image, in order of its number, and how many images have it.
    pub fn refused_images(&self) -> impl Iterator<Item = (Refusal, Figure)> + '_ {
        refused(&self.images_by_answer)
    }

    /// From a place of a row (docs/RULES.md, 16.3).
    fn of(place: &Row) -> Figures {
        let figure = |n: usize| Figure { number: place[2 * n], over: place[2 * n + 1] != 0 };
        Figures {
            files: figure(0),
            directories: figure(1),
            bytes: figure(2),
            extents: figure(3),
            sectors: figure(4),
            files_by_answer: std::array::from_fn(|n| figure(FRONT + n)),
            images_by_answer: std::array::from_fn(|n| figure(FRONT + ANSWERS + n)),
            chain: figure(FRONT + 2 * ANSWERS),
        }
    }

    fn place(&self) -> impl Iterator<Item = u64> + '_ {
        let front = [self.files, self.directories, self.bytes, self.extents, self.sectors];
        let all = front.into_iter().chain(self.files_by_answer).chain(self.images_by_answer).chain([self.chain]);
        all.flat_map(|figure| [figure.number, u64::from(figure.over)])
    }
}

/// 0 for a refusal that isn't in the table.
fn by(figures: &[Figure; ANSWERS], why: Refusal) -> Figure {
    usize::try_from(why.number()).ok().and_then(|number| figures.get(number)).copied().unwrap_or_default()
}

fn refused(figures: &[Figure; ANSWERS]) -> impl Iterator<Item = (Refusal, Figure)> + '_ {
    let numbered = figures.iter().enumerate().filter(|(_, figure)| !figure.is_zero());
    numbered.filter_map(|(number, figure)| Some((Refusal::of(number as u64)?, *figure)))
}

/// The figures of a shelf: of each image, in the order given, and of all.
#[derive(Debug, Clone, PartialEq, Eq, Hash)]
pub struct Survey {
    /// The figures of each image.
    pub images: Vec<Figures>,
    /// The figures of the shelf: the sums, and the longest chain.
    pub total: Figures,
}

/// Surveys images: the figures of each, and of all. An image that can't be opened, or whose tree is refused, counts
/// under its answer and does not affect the others; so does a file that can't be read. Each image has a budget of
/// `most` sectors.
///
/// Each image is surveyed as by [`survey_image`]. The call is refused, with 15, only if there is no memory for the
/// figures.
///
/// ```
/// # fn main() -> Result<(), Box<dyn std::error::Error>> {
/// use strandlodge::{How, Refusal, UNLIMITED};
/// let image = strandlodge::write(&[("9", &b"cue 9"[..]), ("10.1A", b"cue 10.1A")])?;
/// let survey = strandlodge::survey(&[&image[..], b"no disc"], How::default(), UNLIMITED)?;
/// assert_eq!((survey.images[0].files.number, survey.total.bytes.number), (2, 14));
/// assert_eq!(survey.images[1].refusal(), Some(Refusal::Io));
/// # Ok(())
/// # }
/// ```
///
/// # Errors
///
/// Refusal 15 if there is no memory for the figures. The refusal of an image is in its figures.
pub fn survey(images: &[impl AsRef<[u8]>], how: How, most: u64) -> Result<Survey, Refusal> {
    let mut figures = Vec::new();
    figures.try_reserve_exact(images.len()).map_err(|_| Refusal::BadShelf)?;
    figures.extend(images.iter().map(|image| survey_image(image.as_ref(), how, most)));
    let total = survey_total(&figures)?;
    Ok(Survey { images: figures, total })
}

/// The figures of one image. To add up those of several, use [`survey_total`].
///
/// The directories on the way down a tree share one work space, and a tree that doesn't fit is refused with 6. Here the
/// work space starts at 64 KiB and doubles up to 256 MiB; [`survey_shelf`] takes one of any length.
///
/// A directory is visited once for each path to it, as in [`Disc::show`](crate::Disc::show), and a malicious disc may
/// have more paths than can be counted. So the image has a budget of `most` sectors, for its opening, its tree and the
/// reads of its files together, and is refused with 16 if it needs more; [`UNLIMITED`](crate::UNLIMITED) is no budget.
/// A survey that is repeated with more work space has `most` sectors again.
///
/// ```
/// # fn main() -> Result<(), Box<dyn std::error::Error>> {
/// # let image = strandlodge::write(&[("9", b"cue 9")])?;
/// let figures = strandlodge::survey_image(&image, strandlodge::How::default(), 1_000_000);
/// println!("{} files, {} bytes", figures.files, figures.bytes);
/// # Ok(())
/// # }
/// ```
pub fn survey_image(image: &[u8], how: How, most: u64) -> Figures {
    let (mut work, lengths) = (Room::new(FIRST, MOST_DIRECTORY), [image.len() as u64]);
    loop {
        let mut row = [0; 2 * FIGURES];
        let answer = calls::survey(image, &lengths, how.number(), most, &mut row, &mut work.lent);
        // It is always done: the length is the slice's, and there are two places.
        let figures = row.first_chunk().filter(|_| answer == DONE).map_or_else(Figures::default, Figures::of);
        if figures.refusal() != Some(Refusal::NoWork) || !work.double() {
            return figures;
        }
    }
}

/// Surveys images that are in one slice one after another, from its front, each as long as `lengths` says, with one
/// call of the archive. Each has a budget of `most` sectors. The figures depend on the length of the work space: an
/// image whose tree doesn't fit is refused with 6. The work space is all zero on return.
///
/// ```
/// # fn main() -> Result<(), Box<dyn std::error::Error>> {
/// use strandlodge::{How, UNLIMITED, survey_shelf};
/// let [one, two] = [strandlodge::write(&[("9", b"cue 9")])?, strandlodge::write(&[("10", b"cue 10")])?];
/// let (shelf, lengths) = ([&one[..], &two].concat(), [one.len() as u64, two.len() as u64]);
/// let shelf = survey_shelf(&shelf, &lengths, How::default(), UNLIMITED, &mut [0; 4096])?;
/// assert_eq!((shelf.images.len(), shelf.total.files.number), (2, 2));
/// # Ok(())
/// # }
/// ```
///
/// # Errors
///
/// Refusal 15 if the lengths exceed the shelf, or if there is no memory for the figures. The refusal of an image is in
/// its figures.
pub fn survey_shelf(shelf: &[u8], lengths: &[u64], how: How, most: u64, work: &mut [u8]) -> Result<Survey, Refusal> {
    let mut row = zeros(lengths.len())?;
    done(calls::survey_in(shelf, lengths, how.number(), most, &mut row, work))?;
    let mut images = places(&row)?;
    let total = images.pop().unwrap_or_default();
    Ok(Survey { images, total })
}

/// The total of figures, as [`survey`] gives it: each added up, and the longest chain. If one is over, so is that of
/// the total.
///
/// ```
/// # fn main() -> Result<(), Box<dyn std::error::Error>> {
/// use strandlodge::{Figures, survey_total};
/// let most = Figures { bytes: u64::MAX.into(), ..Figures::default() };
/// let one = Figures { bytes: 1.into(), ..Figures::default() };
/// assert!(survey_total(&[most, one])?.bytes.over && !survey_total(&[most])?.bytes.over);
/// # Ok(())
/// # }
/// ```
///
/// # Errors
///
/// Refusal 15 if there is no memory for the figures.
pub fn survey_total(images: &[Figures]) -> Result<Figures, Refusal> {
    let mut row = zeros(images.len())?;
    row.iter_mut().zip(images.iter().flat_map(Figures::place)).for_each(|(to, number)| *to = number);
    done(calls::survey_total(&mut row, images.len()))?;
    Ok(row.last_chunk().map_or_else(Figures::default, Figures::of))
}

/// A row for this many images and the shelf.
fn zeros(images: usize) -> Result<Vec<u64>, Refusal> {
    let (numbers, mut row) = (images.saturating_add(1).saturating_mul(FIGURES), Vec::new());
    row.try_reserve_exact(numbers).map_err(|_| Refusal::BadShelf)?;
    row.resize(numbers, 0);
    Ok(row)
}

fn places(row: &[u64]) -> Result<Vec<Figures>, Refusal> {
    let (places, _) = row.as_chunks::<FIGURES>();
    let mut figures = Vec::new();
    figures.try_reserve_exact(places.len()).map_err(|_| Refusal::BadShelf)?;
    figures.extend(places.iter().map(Figures::of));
    Ok(figures)
}

fn done(answer: u64) -> Result<(), Refusal> {
    Refusal::of(answer).map_or(Ok(()), Err)
}

#[cfg(test)]
mod tests {
    use super::*;

    /// Each number of a place is where it must be, and comes back.
    #[test]
    fn a_place_is_read_as_it_is_written() {
        let place: Row = std::array::from_fn(|n| if n % 2 == 0 { 100 + n as u64 } else { (n as u64 / 2) % 2 });
        let figures = Figures::of(&place);
        assert_eq!((figures.numbers(), Figures::of_numbers(&place)), (place, figures));
        assert_eq!((figures.files.number, figures.directories.number, figures.sectors.number, figures.chain.number), (100, 102, 108, 178));
        assert_eq!((figures.files_by_answer[0].number, figures.images_by_answer[0].number), (110, 144));
        assert_eq!((figures.files_refused(Refusal::Io).number, figures.images_refused(Refusal::OverBudget).number), (112, 176));
        assert!(figures.files_refused(Refusal::Unknown(17)).is_zero() && figures.files_refused(Refusal::Unknown(u64::MAX)).is_zero());
    }

    #[test]
    fn what_is_over_says_so() {
        assert_eq!(
            (Figure::from(7).to_string(), Figure { number: u64::MAX, over: true }.to_string()),
            ("7".to_string(), "over".to_string())
        );
        assert_eq!(
            (format!("{:5}", Figure::from(7)), format!("{:>5}", Figure { number: 0, over: true })),
            ("    7".into(), " over".into())
        );
    }
}
