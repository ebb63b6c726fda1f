//! Replays a file of stored queries and compares the results with the stored lines.

use crate::asked::{BY_HAND, Call, Image, NO_VOLUME, Query, WATCHED, images};
use crate::said::{Said, asking};
use crate::vault::{NO_ROOM, NO_SLOT, NO_WORK, TOO_MANY, Volume};
use std::collections::BTreeMap;
use std::str::Lines;

/// A call to make.
pub struct Asked<'a> {
    /// The available bytes of the image.
    pub image: &'a [u8],
    /// The volume of the call.
    pub volume: Volume,
    /// The call.
    pub call: Call,
    /// The rest of the query.
    pub query: &'a Query,
    /// Whether the stored result is a refusal for lack of memory, of the call or of a path of its list.
    pub is_short: bool,
}

/// The counts of a file.
#[derive(Debug, Default, PartialEq, Eq)]
pub struct Counts {
    /// The number of images.
    pub images: usize,
    /// The number of queries.
    pub queries: usize,
    /// The stored lines that were compared, by call and answer.
    pub compared: BTreeMap<(Call, u64), usize>,
    /// The stored lines that were skipped.
    pub passed: BTreeMap<Call, usize>,
}

impl Counts {
    /// The number of compared lines of a call.
    pub fn of(&self, call: Call) -> usize {
        self.compared.iter().filter(|((of, _), _)| *of == call).map(|(_, lines)| lines).sum()
    }

    /// Adds the counts of another file.
    pub fn add(&mut self, other: &Counts) {
        self.images += other.images;
        self.queries += other.queries;
        other.compared.iter().for_each(|(what, lines)| *self.compared.entry(*what).or_default() += lines);
        other.passed.iter().for_each(|(call, lines)| *self.passed.entry(*call).or_default() += lines);
    }
}

/// The files of the stored output, each with its lines.
pub fn sections(output: &str) -> Vec<(&str, &str)> {
    let starts = output.match_indices("file ").map(|(at, _)| at).filter(|at| *at == 0 || output[..*at].ends_with('\n'));
    let starts: Vec<usize> = starts.chain([output.len()]).collect();
    let section = |ends: &[usize]| output[ends[0] + "file ".len()..ends[1]].split_once('\n').unwrap_or_default();
    starts.windows(2).map(section).collect()
}

/// Replays a file and compares it with its stored lines: the asker makes each call, and its line must be the stored
/// one. If the asker returns nothing, the line is skipped. A volume is the one that the asker returned for
/// [`Call::Open`] on the whole image. Returns what was compared, or the first difference.
pub fn replay(file: &[u8], stored: &str, asker: impl FnMut(&Asked) -> Option<Said>) -> Result<Counts, String> {
    let mut replay = Replay { stored: Stored { lines: stored.lines(), next: None, number: 0 }, counts: Counts::default(), asker };
    replay.stored.advance();
    for image in images(file) {
        let image = image.map_err(|wrong| wrong.to_string())?;
        replay.image(&image).map_err(|what| format!("image {}, line {}:{what}", image.name, replay.stored.number))?;
    }
    match replay.stored.next {
        None if replay.counts.images == 0 => Err("there is no image".into()),
        None => Ok(replay.counts),
        Some(line) => Err(format!("stored behind the end: {line}")),
    }
}

/// The stored lines, from the next one on.
struct Stored<'s> {
    lines: Lines<'s>,
    next: Option<&'s str>,
    /// The number of the next line, counted from 1.
    number: usize,
}

impl Stored<'_> {
    fn advance(&mut self) {
        self.next = self.lines.next();
        self.number += 1;
    }

    /// Checks that the next line is this one.
    fn expect(&mut self, line: &str) -> Result<(), String> {
        if self.next != Some(line) {
            return Err(differs(line, self.next));
        }
        self.advance();
        Ok(())
    }
}

fn differs(said: &str, stored: Option<&str>) -> String {
    format!("\nsaid   {said}\nstored {}", stored.unwrap_or("nothing"))
}

struct Replay<'s, A> {
    stored: Stored<'s>,
    counts: Counts,
    asker: A,
}

impl<A: FnMut(&Asked) -> Option<Said>> Replay<'_, A> {
    fn image(&mut self, image: &Image) -> Result<(), String> {
        self.stored.expect(&format!("image {}", image.name))?;
        self.counts.images += 1;
        let mut opened = [None; BY_HAND as usize];
        for query in &image.queries {
            self.stored.expect(&asking(query, image.bytes.len()))?;
            self.counts.queries += 1;
            let volume = match query.volume.checked_sub(BY_HAND) {
                Some(place) => image.by_hand[place as usize],
                None => *opened[query.volume as usize].get_or_insert_with(|| self.open(image, query)),
            };
            for call in query.calls() {
                self.call(image, volume, call, query)?;
            }
        }
        Ok(())
    }

    /// The volume for a query's choice.
    fn open(&mut self, image: &Image, query: &Query) -> Volume {
        let asked = Asked { image: &image.bytes, volume: NO_VOLUME, call: Call::Open, query, is_short: false };
        (self.asker)(&asked).map_or(NO_VOLUME, |said| said.volume)
    }

    /// Makes a call on what is there, or on every cut.
    fn call(&mut self, image: &Image, volume: Volume, call: Call, query: &Query) -> Result<(), String> {
        let is_watched = query.there == WATCHED;
        let cuts = if is_watched { cuts(image.bytes.len()) } else { vec![query.there as usize] };
        let mut line = None;
        for cut in cuts {
            let front = if is_watched { format!("at {cut} ") } else { String::new() };
            let next = self.stored.next.and_then(|next| next.strip_prefix(&front)).filter(|next| is_of(next, call));
            // What stands from here on is another line than before.
            let is_new = next.is_some() && next != line;
            if is_new {
                line = next;
            }
            let asked = Asked { image: &image.bytes[..cut], volume, call, query, is_short: line.is_some_and(is_short) };
            let said = (self.asker)(&asked);
            let given = said.as_ref().map(|said| said.line(call));
            if line.is_none() || given.as_deref().is_some_and(|given| Some(given) != line) {
                return Err(differs(&(front + &given.unwrap_or_default()), line.or(self.stored.next)));
            }
            if is_new {
                self.stored.advance();
                match said {
                    Some(said) => *self.counts.compared.entry((call, said.answer)).or_default() += 1,
                    None => *self.counts.passed.entry(call).or_default() += 1,
                }
            }
        }
        Ok(())
    }
}

/// The lengths to which a watched image is cut: each end of a sector, one byte less and one byte more.
fn cuts(length: usize) -> Vec<usize> {
    (1..=length / 2048).flat_map(|sector| [sector * 2048 - 1, sector * 2048, (sector * 2048 + 1).min(length)]).collect()
}

/// Whether a line belongs to a call.
fn is_of(line: &str, call: Call) -> bool {
    line.split(' ').next() == Some(call.name())
}

/// Whether a line is a refusal for lack of memory.
fn is_short(line: &str) -> bool {
    let number = |word: Option<&str>| word.and_then(|word| word.parse().ok());
    let of_list = line.split_once(" answers ").into_iter().flat_map(|(_, row)| row.split(' ').map(|word| number(Some(word))));
    let mut all = [number(line.split(' ').nth(1))].into_iter().chain(of_list).flatten();
    all.any(|answer: u64| [NO_ROOM, NO_WORK, NO_SLOT, TOO_MANY].contains(&answer))
}

#[cfg(test)]
mod tests {
    use super::*;
    use crate::asked::put;

    /// An image of two sectors that is probed and measured, and measured once more while it is watched.
    fn file() -> Vec<u8> {
        let whole = Query { calls: Call::Probe.bit() | Call::Measure.bit(), there: 4096, text: b"a".to_vec(), ..Query::default() };
        let watched = Query { calls: Call::Measure.bit(), there: WATCHED, ..Query::default() };
        let mut file = Vec::new();
        put(&mut file, &Image { name: "two".into(), bytes: vec![1; 4096], by_hand: Vec::new(), queries: vec![whole, watched] });
        file
    }

    const STORED: &str = "image two
query text a
probe yes
measure 0 count 2 length 2
query there 4294967295
at 2047 measure 0 count 0 length 0
at 2048 measure 0 count 1 length 1
at 4096 measure 0 count 2 length 2
";

    /// It measures sectors, and has no probe.
    fn asker(asked: &Asked) -> Option<Said> {
        let sectors = asked.image.len() as u64 / 2048;
        (asked.call != Call::Probe).then(|| Said { length: sectors, ..Said::of(0, sectors) })
    }

    #[test]
    fn lines_are_compared_or_passed_over() {
        let counts = replay(&file(), STORED, asker).unwrap();
        assert_eq!((counts.images, counts.queries, counts.of(Call::Measure), counts.of(Call::Probe)), (1, 2, 4, 0));
        assert_eq!(counts.passed, BTreeMap::from([(Call::Probe, 1)]));
    }

    #[test]
    fn a_difference_is_told() {
        for line in STORED.lines() {
            let wrong = |other: &str| replay(&file(), &STORED.replacen(&format!("{line}\n"), other, 1), asker).unwrap_err();
            wrong("");
            wrong(&format!("{line}\n{line}\n"));
            if line != "probe yes" {
                wrong(&format!("{line} \n"));
            }
        }
        assert!(replay(&file(), &(STORED.to_string() + "image three\n"), asker).is_err());
        assert!(replay(&file()[..100], STORED, asker).unwrap_err().starts_with("byte "));
        assert!(replay(&[], STORED, asker).is_err() && replay(&[], "", asker).is_err());
        let late = |asked: &Asked| asker(asked).map(|said| Said { count: asked.image.len() as u64 / 2047, ..said });
        assert!(replay(&file(), STORED, late).is_err());
    }

    #[test]
    fn lines_that_tell_of_too_little_memory() {
        for line in ["read 5 count 1", "list 6 count", "runs 7 count", "read_all 12 count", "read_all 0 count 5 answers 0 6 zero"] {
            assert!(is_short(line), "{line}");
        }
        for line in ["read 4 count 5", "probe yes", "read_all 0 count 5 lengths 5 6 answers 0 4 zero", "show 11 count 7"] {
            assert!(!is_short(line), "{line}");
        }
    }

    #[test]
    fn an_output_has_a_section_for_each_file() {
        assert_eq!(sections("file a\nimage file x\nfile b\nimage b\n"), [("a", "image file x\n"), ("b", "image b\n")]);
        assert_eq!(sections(""), []);
    }
}
