//! The tour of the sample show, and of an image that is made.

use crate::args::Question;
use crate::commands::{self, Manner};
use crate::disc::OpenDisc;
use crate::failure::{Failure, NO_IMAGE, NO_OUTPUT};
use crate::log::Log;
use crate::make;
use crate::names::shown;
use crate::runs::Span;
use crate::steps::Rule;
use crate::style::Style;
use crate::wanted::Wanted;
use std::ffi::OsStr;
use std::io::Write;
use strandlodge::{How, Matching, SECTOR_SIZE};
use strandlodge_sys::sparse;

/// A show with four cues, that of the program `first_cue`, as a disc that other readers take too. It is kept sparse, and tools/sample_image.py writes it.
const PACKED: &[u8] = include_bytes!("sample");

/// The name that the image has in the tour.
const NAME: &str = "show.img";

/// The two cues, and the directory that they stand in.
const DIRECTORY: &[u8] = b"SHOW";
const UPPER: &[u8] = b"SHOW/10.1A";
const LOWER: &[u8] = b"SHOW/10.1a";

/// The sample show's image.
pub fn sample() -> Result<Vec<u8>, Failure> {
    sparse::expand(PACKED).ok_or_else(|| Failure::new(NO_IMAGE, "the built-in sample show is damaged"))
}

pub fn give(out: &mut impl Write) -> Result<(), Failure> {
    let (original, only) = (Rule::Call(Matching::CaseIgnored), Rule::Call(Matching::Unambiguous));
    let image = sample()?;
    let cat = |path: &[u8]| Question::Cat { wanted: Wanted::Path(path.into()) };
    text(out, BEGIN)?;
    step(&image, Question::Label, Rule::Safe, "label show.img", out)?;
    step(&image, Question::Ls { wanted: Wanted::Path(DIRECTORY.into()) }, Rule::Safe, "ls show.img SHOW", out)?;
    text(out, "Two cues have names that differ only in case. They are two entries:\n\n")?;
    looks(&image, out)?;
    text(out, MATCHING)?;
    step(&image, cat(UPPER), Rule::Safe, "cat show.img SHOW/10.1A", out)?;
    step(&image, cat(LOWER), Rule::Safe, "cat show.img SHOW/10.1a", out)?;
    text(out, ANY_CASE)?;
    step(&image, cat(b"show/9"), Rule::Safe, "cat show.img show/9", out)?;
    text(out, ORIGINAL)?;
    step(&image, cat(LOWER), original, "cat --as-original show.img SHOW/10.1a", out)?;
    text(out, CHOICES)?;
    step(&image, cat(LOWER), only, "cat --unambiguous show.img SHOW/10.1a", out)?;
    step(&image, Question::Stat { wanted: Wanted::Path(LOWER.into()) }, Rule::Safe, "stat show.img SHOW/10.1a", out)?;
    text(out, CONSOLE)?;
    text(out, MAKING)?;
    made(&image, out)
}

const BEGIN: &str = "\
A tour of a small show. To follow it, run `vault sample show.img`, then type
the lines that start with $. `vault --help` lists all commands.

";

const MATCHING: &str = "\
A path gives the entry with exactly that name, so each cue has its own path:

";

const ANY_CASE: &str = "\
If no entry has exactly that name, but one has it in another case, you get that
one, with a note. If several do, the path is refused (9).

";

const ORIGINAL: &str = "\
The original ignores ASCII case and takes the first entry, so you may get another
cue than the one you asked for. --as-original does the same:

";

const CHOICES: &str = "\
There are two more choices: --as-written takes only the exact name, and
--unambiguous refuses a name that two entries match, even if one is exact:

";

const CONSOLE: &str = "\
In the Rust crate, lookup and read_path follow the original's rule. To choose
another, use lookup_as and read_path_as with Matching::AsWritten or
Matching::Unambiguous.
";

const MAKING: &str = "
You can also make an image from files. It has one directory:

";

/// The files of the image that the tour makes, and its name.
const STAGED: [&str; 2] = ["9", "11"];
const NEW: &str = "new.img";

/// Two cues taken off the show, and an image made of them; all in memory.
fn made(image: &[u8], out: &mut impl Write) -> Result<(), Failure> {
    let mut log = Log::default();
    let disc = OpenDisc::open(image, How::default(), NAME, Rule::Safe, &mut log)?;
    let paths = STAGED.map(|name| format!("SHOW/{name}"));
    let cues = disc.volume.read_all(&paths).map_err(|refused| Failure::refused(NAME, refused))?;
    let cues = cues.value.into_iter().collect::<Result<Vec<_>, _>>().map_err(|why| Failure::refused(NAME, why))?;
    text(out, &format!("$ vault get show.img -o . {}\n", paths.join(" ")))?;
    for ((name, path), cue) in STAGED.iter().zip(&paths).zip(&cues) {
        text(out, &format!("{path}: {} bytes, to ./{name}\n", cue.len()))?;
    }
    let files: Vec<(&str, &[u8])> = STAGED.iter().copied().zip(cues.iter().map(Vec::as_slice)).collect();
    let new = strandlodge::write(&files).map_err(|why| Failure::refused(NEW, why))?;
    let says = make::made(OsStr::new(NEW), files.len(), new.len() as u64 / SECTOR_SIZE);
    text(out, &format!("\n$ vault make {NEW} {}\n{says}\n\n", STAGED.join(" ")))?;
    step(&new, Question::Ls { wanted: Wanted::Path(Vec::new()) }, Rule::Safe, &format!("ls {NEW}"), out)
}

fn text(out: &mut impl Write, text: &str) -> Result<(), Failure> {
    out.write_all(text.as_bytes()).map_err(Failure::output)
}

/// A command as it is typed, its answer, and what it would say on standard error.
fn step(image: &[u8], question: Question, matching: Rule, typed: &str, out: &mut impl Write) -> Result<(), Failure> {
    let (mut log, manner) = (Log::default(), Manner { how: How::default(), matching, style: Style::default(), span: Span::default() });
    text(out, &format!("$ vault {typed}\n"))?;
    let refused = match commands::ask(&question, manner, image, OsStr::new(NAME), out, &mut log) {
        // What is written is the tour itself.
        Err(failure) if failure.status == NO_OUTPUT || failure.says.is_none() => return Err(failure),
        asked => asked.err().and_then(|failure| failure.says),
    };
    for line in log.remarks.iter().chain(&refused) {
        text(out, &format!("vault: {line}\n"))?;
    }
    text(out, "\n")
}

/// The last line of each of the two cues, read by the ICB of its entry.
fn looks(image: &[u8], out: &mut impl Write) -> Result<(), Failure> {
    let mut log = Log::default();
    let mut disc = OpenDisc::open(image, How::default(), NAME, Rule::Safe, &mut log)?;
    let directory = disc.find_path(DIRECTORY)?.icb;
    for entry in disc.list(DIRECTORY, directory)?.iter().filter(|entry| entry.name.eq_ignore_ascii_case("10.1a")) {
        let cue = disc.read(DIRECTORY, entry.icb)?;
        let look = cue.trim_ascii_end().rsplit(|byte| *byte == b'\n').next().unwrap_or_default();
        text(out, &format!("  {:6} in block {}: {}\n", entry.name, entry.icb.location.block, shown(look)))?;
    }
    text(out, "\n")
}
