//! What `check` prints: a line for each descriptor that isn't in place, for each that has a wrong body, and for each thing that can't be read.

use crate::bar::Word;
use crate::failure::{Failure, STOPPED, UNREAD, WRONG};
use crate::json::Json;
use crate::limit;
use crate::records::{Tag, crc, has_right_body, is_in_place};
use crate::style::Style;
use std::fmt;
use std::io::Write;
use strandlodge::Diagnosis;
use strandlodge::udf::TagId;

/// The bytes of a tag.
const TAG: usize = 16;

/// Of an object.
type Fields = Vec<(&'static str, Json)>;

/// Where the first byte of a descriptor stands.
#[derive(Clone, Copy, PartialEq, Eq, Hash, Debug)]
pub struct Place {
    pub sector: u64,
    /// Counted from the partition's start; the volume structure stands in no partition.
    pub block: Option<u64>,
}

impl Place {
    /// A block that stands in a sector.
    pub fn of(block: u32, sector: u64) -> Place {
        Place { sector, block: Some(block.into()) }
    }

    /// The one so many sectors behind it.
    pub fn behind(self, n: u64) -> Place {
        Place { sector: self.sector.saturating_add(n), block: self.block.map(|block| block.saturating_add(n)) }
    }

    /// Of the volume structure.
    pub fn in_volume(sector: u64) -> Place {
        Place { sector, block: None }
    }

    /// The check. A descriptor that goes by its block is in place in no sector that has none, or none that a location can name.
    fn holds(self, tag: Tag) -> bool {
        match self.block.and_then(|block| u32::try_from(block).ok()) {
            Some(block) => is_in_place(tag, self.sector, block),
            // With two numbers for the block: both can hold only where it isn't looked at.
            None => is_in_place(tag, self.sector, 0) && is_in_place(tag, self.sector, 1),
        }
    }
}

impl Place {
    fn json(self) -> Fields {
        vec![("sector", Json::number(self.sector)), ("block", Json::maybe(self.block, Json::number))]
    }
}

impl fmt::Display for Place {
    fn fmt(&self, f: &mut fmt::Formatter<'_>) -> fmt::Result {
        match self.block {
            Some(block) => write!(f, "block {block} (sector {})", self.sector),
            None => write!(f, "sector {}", self.sector),
        }
    }
}

pub struct Report<'o, W> {
    out: &'o mut W,
    /// Stands on a terminal until there is a line.
    word: Option<Word>,
    descriptors: u64,
    misplaced: u64,
    ruined: u64,
    unread: u64,
    /// What was found, where it is printed as a document.
    findings: Option<Vec<Json>>,
}

impl<'o, W: Write> Report<'o, W> {
    pub fn new(out: &'o mut W, style: Style) -> Report<'o, W> {
        let findings = style.is_json.then(Vec::new);
        Report { out, word: Some(Word::new("checking")), descriptors: 0, misplaced: 0, ruined: 0, unread: 0, findings }
    }

    /// A descriptor's tag, where it stands, and the bytes at hand from it on; `of` is what the descriptor is of.
    pub fn descriptor(&mut self, of: impl Fn() -> String, tag: Tag, at: Place, bytes: &[u8]) -> Result<(), Failure> {
        self.descriptors += 1;
        let (what, id) = (TagId::from_raw(tag.id).map_or("descriptor", TagId::name), tag.id);
        let fields = || vec![("of", Json::text(of())), ("descriptor", Json::text(what)), ("id", Json::number(id))];
        if !at.holds(tag) {
            self.misplaced += 1;
            let fields = || [fields(), at.json(), vec![("location", Json::number(tag.location))]].concat();
            self.line("misplaced", fields, format!("{}: {what} (id {id}) says {}, stands in {at}", of(), tag.location))?;
        }
        if !has_right_body(tag, bytes) {
            self.ruined += 1;
            let fields = || [fields(), at.json(), sums(tag, bytes)].concat();
            self.line("ruined", fields, format!("{}: {what} (id {id}) in {at} has a wrong body: {}", of(), ruin(tag, bytes)))?;
        }
        Ok(())
    }

    /// What can't be read, and so isn't checked.
    pub fn unread(&mut self, what: &str, why: &Diagnosis) -> Result<(), Failure> {
        self.unread += 1;
        let place = why.place.map_or(String::new(), |place| format!("; {place}"));
        let fields = || {
            let sector = Json::maybe(why.place, |place| Json::number(place.sector));
            vec![("of", Json::text(what)), ("answer", Json::number(why.refused.number())), ("sector", sector)]
        };
        self.line("unread", fields, format!("{what}: can't be read: {} (refusal {}){place}", why.what(), why.refused.number()))
    }

    fn line(&mut self, kind: &'static str, fields: impl Fn() -> Fields, text: String) -> Result<(), Failure> {
        if let Some(findings) = &mut self.findings {
            let [kind, says] = [("kind", Json::text(kind)), ("says", Json::text(text))];
            findings.push(Json::Object([vec![kind], fields(), vec![says]].concat()));
            return Ok(());
        }
        self.word = None;
        writeln!(self.out, "{text}").map_err(Failure::output)
    }

    /// What was found of a volume that can't be opened.
    pub fn refused(mut self, failure: &Failure) -> Result<(), Failure> {
        self.document(None, Some(failure))
    }

    /// All that was found, where it is printed as a document, at which limit it ends, and why the volume wasn't opened.
    fn document(&mut self, stopped: Option<u64>, refused: Option<&Failure>) -> Result<(), Failure> {
        let Some(findings) = self.findings.take() else {
            return Ok(());
        };
        self.word = None;
        Json::Object(vec![
            ("descriptors", Json::number(self.descriptors)),
            ("misplaced", Json::number(self.misplaced)),
            ("ruined", Json::number(self.ruined)),
            ("unread", Json::number(self.unread)),
            ("stopped", Json::maybe(stopped, Json::number)),
            ("refused", Json::maybe(refused, Failure::json)),
            ("findings", Json::List(findings)),
        ])
        .print(self.out)
    }

    /// The last line, or how the command fails; `stopped` is the limit, where not all was looked at.
    pub fn end(mut self, name: &str, stopped: Option<u64>) -> Result<(), Failure> {
        let Report { descriptors, misplaced, ruined, unread, .. } = self;
        let wrong = format!("not in place: {misplaced}, with a wrong body: {ruined}; places that can't be read: {unread}");
        let found = format!("descriptors: {descriptors}, {wrong}");
        let says = || format!("{name}: {found}");
        let is_document = self.findings.is_some();
        self.document(stopped, None)?;
        if let Some(most) = stopped {
            return Err(Failure::new(STOPPED, limit::stopped(name, most, &format!("; so far: {found}"))));
        }
        match (misplaced + ruined, unread) {
            (0, 0) if is_document => Ok(()),
            (0, 0) => self.line("sound", Vec::new, format!("{descriptors} descriptors, each in place and with a right body")),
            (0, _) => Err(Failure::new(UNREAD, says())),
            _ => Err(Failure::new(WRONG, says())),
        }
    }
}

/// The CRC of a tag, of how many bytes it is, and that of as many bytes behind it, where they are there.
fn sums(tag: Tag, bytes: &[u8]) -> Fields {
    let body = bytes.get(TAG..).and_then(|body| body.get(..tag.crc_length.into()));
    let found = Json::maybe(body, |body| Json::number(crc(body)));
    vec![("crc", Json::number(tag.crc)), ("crc_length", Json::number(tag.crc_length)), ("crc_found", found)]
}

/// What a wrong body's tag says, and what there is.
fn ruin(tag: Tag, bytes: &[u8]) -> String {
    let (body, length) = (bytes.get(TAG..).unwrap_or_default(), tag.crc_length);
    match body.get(..length.into()) {
        Some(summed) => format!("its tag has the CRC {:04x}, and its {length} bytes have {:04x}", tag.crc, crc(summed)),
        None => format!("its tag has the CRC of {length} bytes, and {} are there", body.len()),
    }
}
