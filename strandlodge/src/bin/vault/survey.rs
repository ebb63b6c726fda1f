//! `survey`: what stands on each of many images, in figures, and on all of them.
//!
//! The images are mapped one at a time, so that a shelf of any size needs neither a copy nor room for more than one. Their figures are added up by the
//! archive's own call. `--rows` writes the figures of each as numbers, and `--total` adds up such rows, wherever they were made.

use crate::bar::Line;
use crate::commands::line;
use crate::disc::OpenDisc;
use crate::failure::{Failure, NO_IMAGE, UNREAD, WRONG};
use crate::image::Image;
use crate::json::Json;
use crate::limit::{self, Limit};
use crate::log::{Log, say};
use crate::names::shown;
use crate::steps::Rule;
use std::ffi::{OsStr, OsString};
use std::io::{self, BufRead, BufReader, IsTerminal, Write};
use std::os::unix::ffi::OsStrExt;
use strandlodge::{Asked, Figure, Figures, How, Refusal, Refused, UNLIMITED, survey_image, survey_total};

/// The levels of a survey's tree.
const LEVELS: u32 = 16;

/// How the images are opened: as it is chosen, and mapped or copied; and how many sectors each is lent.
#[derive(Clone, Copy)]
pub struct Taken {
    pub how: How,
    pub copied: bool,
    pub limit: Limit,
}

/// An image: its figures, or where there are none, why it couldn't be looked at. What is said is one sentence.
struct Surveyed {
    name: String,
    /// The sectors that it was lent, where that is known.
    most: Option<u64>,
    figures: Option<Figures>,
    says: Option<String>,
}

/// How a survey is written.
#[derive(Debug, Clone, Copy, PartialEq, Eq)]
pub enum Form {
    /// A line for each image that was surveyed, and one for all.
    Table,
    /// The numbers of each image's place.
    Rows,
    Document,
}

/// Prints a line for each image and one for all, or a row for each, or one document. Why an image isn't surveyed goes to standard error.
pub fn survey(images: &[OsString], taken: Taken, form: Form, out: &mut impl Write, log: &mut Log) -> Result<(), Failure> {
    let (mut all, mut progress) = (Vec::new(), Line::default());
    head(form, out)?;
    for (n, name) in images.iter().enumerate() {
        progress.say(format!("surveying {} of {}: {}", n + 1, images.len(), shown(name.as_bytes())));
        let one = surveyed(name, taken);
        progress.wipe();
        log.sums(one.figures.iter().map(|figures| ("reads", figures.sectors.number)));
        one.print(form, out)?;
        // It may be long until the next.
        out.flush().map_err(Failure::output)?;
        all.push(one);
    }
    let total = total(&all)?;
    match form {
        Form::Document => document(&all, &total).print(out)?,
        Form::Table if images.len() > 1 => line(out, &row(&total, "total"))?,
        Form::Table | Form::Rows => {}
    }
    end(&all, &total)
}

/// Prints what a survey of the images of some rows prints: the rows stand in files, each in a line.
pub fn add_up(files: &[OsString], form: Form, out: &mut impl Write) -> Result<(), Failure> {
    let mut all = Vec::new();
    for file in files {
        read(file, &mut all)?;
    }
    head(form, out)?;
    all.iter().try_for_each(|one| one.print(form, out))?;
    let total = total(&all)?;
    match form {
        Form::Document => document(&all, &total).print(out)?,
        _ => line(out, &row(&total, "total"))?,
    }
    end(&all, &total)
}

fn head(form: Form, out: &mut impl Write) -> Result<(), Failure> {
    if form != Form::Table || !io::stdout().is_terminal() {
        return Ok(());
    }
    line(out, HEAD)?;
    out.flush().map_err(Failure::output)
}

fn total(all: &[Surveyed]) -> Result<Figures, Failure> {
    let figures: Vec<Figures> = all.iter().filter_map(|one| one.figures).collect();
    survey_total(&figures).map_err(|why| Failure::refused("survey", why))
}

/// Puts the rows of a file behind those before. A line that is no row refuses all: a sum without it would be wrong.
fn read(file: &OsStr, all: &mut Vec<Surveyed>) -> Result<(), Failure> {
    let unread = |error| Failure::file(NO_IMAGE, file, format!("can't read the rows: {error}"));
    let mut rows = BufReader::new(std::fs::File::open(file).map_err(unread)?);
    for number in 1.. {
        let mut bytes = Vec::new();
        if rows.read_until(b'\n', &mut bytes).map_err(unread)? == 0 {
            break;
        }
        let one = str::from_utf8(&bytes).ok().and_then(Surveyed::of_row);
        all.push(one.ok_or_else(|| Failure::file(WRONG, file, format!("line {number} is not a complete row of `vault survey --rows`")))?);
    }
    Ok(())
}

/// How it ends: well where each image was surveyed, and each of its files can be read.
fn end(all: &[Surveyed], total: &Figures) -> Result<(), Failure> {
    let unread = all.iter().filter(|one| one.says.is_some()).count();
    if unread == 0 && total.refused_files().next().is_none() {
        return Ok(());
    }
    let readable = total.files_by_answer[0];
    let says = format!("survey: images: {}, not surveyed: {unread}; files: {}, of which can be read: {readable}", all.len(), total.files);
    Err(Failure::new(UNREAD, says))
}

fn surveyed(name: &OsStr, taken: Taken) -> Surveyed {
    let text = shown(name.as_bytes());
    match Image::open(name, taken.copied) {
        Ok(image) => {
            let most = taken.limit.of(image.len() as u64);
            let figures = survey_image(&image, taken.how, most);
            let says = figures.refusal().and_then(|why| match why {
                Refusal::OverBudget => Some(limit::stopped(&text, most, &format!(" (refusal {})", why.number()))),
                why => why_not(&image, taken.how, &text, why).says,
            });
            Surveyed { name: text, most: Some(most), figures: Some(figures), says }
        }
        Err(failure) => Surveyed { name: text, most: Some(taken.limit.of(0)), figures: None, says: failure.says },
    }
}

/// Why an image wasn't surveyed: its opening is gone over again, and then its tree.
fn why_not(image: &[u8], how: How, name: &str, why: Refusal) -> Failure {
    let refused = Refused { why, sectors: 0 };
    match OpenDisc::open(image, how, name, Rule::default(), &mut Log::default()) {
        Ok(disc) => Failure::diagnosed(name, &disc.volume.diagnose(Asked::Show(LEVELS), &refused)),
        Err(failure) => failure,
    }
}

const HEAD: &str = "   files directories            bytes  extents    sectors chain refused image";

/// The figures in columns, and what they are of.
fn row(figures: &Figures, name: &str) -> String {
    let Figures { files, directories, bytes, extents, sectors, chain, .. } = figures;
    let refused: Vec<String> = figures.refused_files().map(|(why, files)| format!("{}:{files}", why.number())).collect();
    let refused = if refused.is_empty() { "-".to_string() } else { refused.join(",") };
    format!("{files:>8} {directories:>11} {bytes:>16} {extents:>8} {sectors:>10} {chain:>5} {refused:>7} {name}")
}

impl Surveyed {
    /// A line, where there is one in this form. A row is also of an image that was refused, which counts under its number.
    fn print(&self, form: Form, out: &mut impl Write) -> Result<(), Failure> {
        if form != Form::Document {
            self.says.iter().for_each(|says| say(says));
        }
        match (form, &self.figures) {
            (Form::Rows, Some(figures)) => line(out, &self.row(figures)),
            (Form::Table, Some(figures)) if self.says.is_none() => line(out, &row(figures, &self.name)),
            _ => Ok(()),
        }
    }

    /// How many numbers there are, the numbers, and the name, with a space between each two.
    fn row(&self, figures: &Figures) -> String {
        let numbers = figures.numbers().map(|number| number.to_string()).join(" ");
        format!("{} {numbers} {}", Figures::NUMBERS, self.name)
    }

    /// What a whole line holds, its end too: of one that was cut off nothing is known.
    fn of_row(line: &str) -> Option<Surveyed> {
        let mut words = line.strip_suffix('\n')?.splitn(Figures::NUMBERS + 2, ' ');
        words.next().filter(|count| count.parse() == Ok(Figures::NUMBERS))?;
        let mut numbers = [0; Figures::NUMBERS];
        for (at, number) in numbers.iter_mut().enumerate() {
            *number = words.next()?.parse().ok().filter(|number: &u64| at % 2 == 0 || *number <= 1)?;
        }
        let (name, figures) = (words.next()?.to_string(), Figures::of_numbers(&numbers));
        let says = figures.refusal().map(|why| format!("{name}: {why} (refusal {})", why.number()));
        Some(Surveyed { name, most: None, figures: Some(figures), says })
    }

    fn json(&self) -> Json {
        let answer = |figures: &Figures| figures.refusal().map_or(0, |why| why.number());
        let mut all = vec![
            ("image", Json::text(&self.name)),
            ("answer", Json::maybe(self.figures.as_ref().map(answer), Json::number)),
            ("says", Json::maybe(self.says.as_ref(), Json::text)),
            ("limit", Json::maybe(self.most.filter(|most| *most != UNLIMITED), Json::number)),
        ];
        // What couldn't be looked at has none.
        all.extend(self.figures.iter().flat_map(figures_json));
        Json::Object(all)
    }
}

/// The document: the images in the order given, and all of them together.
fn document(all: &[Surveyed], total: &Figures) -> Json {
    let mut sum = figures_json(total);
    sum.push(("images_by_answer", by_answer(&total.images_by_answer, "images")));
    Json::Object(vec![("images", Json::List(all.iter().map(Surveyed::json).collect())), ("total", Json::Object(sum))])
}

/// One that is over has no number.
fn figure(figure: Figure) -> Json {
    if figure.over { Json::Null } else { Json::Number(figure.number) }
}

/// The figures by their names, with the names of those that are over.
fn figures_json(figures: &Figures) -> Vec<(&'static str, Json)> {
    let Figures { files, directories, bytes, extents, sectors, chain, .. } = *figures;
    let named =
        [("files", files), ("directories", directories), ("bytes", bytes), ("extents", extents), ("sectors", sectors), ("chain", chain)];
    let mut all: Vec<(&'static str, Json)> = named.iter().map(|(name, one)| (*name, figure(*one))).collect();
    all.push(("files_by_answer", by_answer(&figures.files_by_answer, "files")));
    let over = named.iter().filter(|(_, one)| one.over).map(|(name, _)| Json::text(*name));
    all.push(("over", Json::List(over.collect())));
    all
}

/// The answer numbers that there are, each with how many have it.
fn by_answer(figures: &[Figure], what: &'static str) -> Json {
    let numbered = figures.iter().enumerate().filter(|(_, one)| !one.is_zero());
    let one = |(number, one): (usize, &Figure)| Json::Object(vec![("answer", Json::number(number as u64)), (what, figure(*one))]);
    Json::List(numbered.map(one).collect())
}

#[cfg(test)]
mod tests {
    use super::*;

    fn over() -> Figure {
        Figure { number: u64::MAX, over: true }
    }

    #[test]
    fn figures_stand_under_their_heads() {
        let mut figures = Figures { files: 12.into(), bytes: u64::MAX.into(), sectors: over(), chain: 3.into(), ..Figures::default() };
        (figures.files_by_answer[2], figures.files_by_answer[10]) = (1.into(), over());
        let line = row(&figures, "a.img");
        assert_eq!(line, "      12           0 18446744073709551615        0       over     3 2:1,10:over a.img");
        let short = row(&Figures::default(), "image");
        assert_eq!((short.len(), &short[short.len() - 7..]), (HEAD.len(), "- image"));
    }

    #[test]
    fn a_row_is_read_as_it_is_written() {
        let numbers = std::array::from_fn(|n| if n % 2 == 0 { u64::MAX - n as u64 } else { (n as u64 / 2) % 2 });
        for name in ["a.img", "a b  c", "7 8", "\\u{a}", " "] {
            let one = Surveyed { name: name.to_string(), most: None, figures: Some(Figures::of_numbers(&numbers)), says: None };
            let text = one.row(&one.figures.unwrap()) + "\n";
            let again = Surveyed::of_row(&text).unwrap();
            assert_eq!((again.name, again.figures), (one.name, one.figures));
            // One that was cut off, or has something else in it, is none.
            assert!((0..text.len()).all(|at| Surveyed::of_row(&text[..at]).is_none()));
            for wrong in
                [text.replacen("80", "78", 1), text.replacen(" 0 ", " 2 ", 1), text.replacen(' ', "  ", 1), text.replacen(' ', " -", 1)]
            {
                assert!(Surveyed::of_row(&wrong).is_none(), "{wrong}");
            }
        }
    }

    #[test]
    fn what_is_over_has_no_number() {
        let mut figures = Figures { bytes: over(), files: u64::MAX.into(), ..Figures::default() };
        figures.files_by_answer[0] = over();
        let text = Json::Object(figures_json(&figures)).to_string();
        assert!(text.starts_with("{\"files\": 18446744073709551615, \"directories\": 0, \"bytes\": null,"), "{text}");
        assert!(text.ends_with("\"files_by_answer\": [{\"answer\": 0, \"files\": null}], \"over\": [\"bytes\"]}"), "{text}");
    }
}
