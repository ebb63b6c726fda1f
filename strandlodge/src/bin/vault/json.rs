//! Documents for other programs (RFC 8259).

use crate::failure::Failure;
use crate::sizes::Sizes;
use std::fmt;
use std::io::Write;
use strandlodge::{DirEntry, LongAd};

#[derive(Clone)]
pub enum Json {
    Null,
    Bool(bool),
    Number(u64),
    Text(String),
    List(Vec<Json>),
    Object(Vec<(&'static str, Json)>),
}

impl Json {
    pub fn text(text: impl Into<String>) -> Json {
        Json::Text(text.into())
    }

    pub fn number(number: impl Into<u64>) -> Json {
        Json::Number(number.into())
    }

    /// What may not be there.
    pub fn maybe<T>(value: Option<T>, make: impl FnOnce(T) -> Json) -> Json {
        value.map_or(Json::Null, make)
    }

    /// Where an entry stands.
    pub fn icb(icb: LongAd) -> Json {
        Json::Object(vec![
            ("block", Json::number(icb.location.block)),
            ("partition", Json::number(icb.location.partition_ref)),
            ("length", Json::number(icb.length)),
            ("type", Json::number(icb.extent_type)),
        ])
    }

    pub fn kind(is_directory: bool) -> Json {
        Json::text(if is_directory { "directory" } else { "file" })
    }

    /// What a directory has of an entry: its name as it is recorded.
    pub fn entry(entry: &DirEntry) -> Vec<(&'static str, Json)> {
        vec![("name", Json::text(&entry.name)), ("kind", Json::kind(entry.is_directory)), ("icb", Json::icb(entry.icb))]
    }

    /// The same with its sizes.
    pub fn sized(entry: &DirEntry, sizes: Option<Sizes>) -> Vec<(&'static str, Json)> {
        let mut all = Json::entry(entry);
        all.extend(sizes.into_iter().flat_map(Sizes::json));
        all
    }

    /// The document, alone on a line.
    pub fn print(&self, out: &mut impl Write) -> Result<(), Failure> {
        writeln!(out, "{self}").map_err(Failure::output)
    }
}

impl fmt::Display for Json {
    fn fmt(&self, f: &mut fmt::Formatter<'_>) -> fmt::Result {
        match self {
            Json::Null => f.write_str("null"),
            Json::Bool(is) => write!(f, "{is}"),
            Json::Number(number) => write!(f, "{number}"),
            Json::Text(text) => quoted(text, f),
            Json::List(all) => write!(f, "[{}]", joined(all.iter())),
            Json::Object(all) => write!(f, "{{{}}}", joined(all.iter().map(|(name, one)| format!("\"{name}\": {one}")))),
        }
    }
}

fn joined(all: impl Iterator<Item = impl fmt::Display>) -> String {
    all.map(|one| one.to_string()).collect::<Vec<_>>().join(", ")
}

/// A string. What a terminal would act on is written out here too, though the rules ask for it of few characters.
fn quoted(text: &str, f: &mut fmt::Formatter<'_>) -> fmt::Result {
    f.write_str("\"")?;
    for c in text.chars() {
        match c {
            '"' | '\\' => write!(f, "\\{c}")?,
            c if crate::names::is_tricky(c) => c.encode_utf16(&mut [0; 2]).iter().try_for_each(|unit| write!(f, "\\u{unit:04x}"))?,
            c => write!(f, "{c}")?,
        }
    }
    f.write_str("\"")
}

/// A list that is printed as it comes, an item to a line. It is ended whatever comes between, so that what is printed is a document.
pub struct Rows<'o, W: Write> {
    out: &'o mut W,
    any: bool,
}

impl<'o, W: Write> Rows<'o, W> {
    pub fn new(out: &'o mut W) -> Rows<'o, W> {
        Rows { out, any: false }
    }

    pub fn row(&mut self, row: &Json) -> Result<(), Failure> {
        let front = if self.any { ",\n " } else { "[" };
        self.any = true;
        write!(self.out, "{front}{row}").map_err(Failure::output)
    }

    pub fn end(self) -> Result<(), Failure> {
        writeln!(self.out, "{}", if self.any { "]" } else { "[]" }).map_err(Failure::output)
    }
}

#[cfg(test)]
mod tests {
    use super::*;

    #[test]
    fn a_document_is_one_line() {
        let inner = Json::Object(vec![("a", Json::Null), ("b", Json::List(vec![Json::number(u64::MAX), Json::Bool(true)]))]);
        assert_eq!(inner.to_string(), "{\"a\": null, \"b\": [18446744073709551615, true]}");
        assert_eq!((Json::List(vec![]).to_string(), Json::Object(vec![]).to_string()), ("[]".to_string(), "{}".to_string()));
    }

    #[test]
    fn strings_are_written_out() {
        let text = Json::text("a\"b\\c\n\u{0}\u{1b}é\u{202e}\u{e0041}日").to_string();
        assert_eq!(text, "\"a\\\"b\\\\c\\u000a\\u0000\\u001bé\\u202e\\udb40\\udc41日\"");
    }

    #[test]
    fn rows_are_a_list() {
        let printed = |rows: &[u64]| {
            let mut out = Vec::new();
            let mut list = Rows::new(&mut out);
            rows.iter().for_each(|row| list.row(&Json::number(*row)).unwrap());
            list.end().unwrap();
            String::from_utf8(out).unwrap()
        };
        assert_eq!((printed(&[]).as_str(), printed(&[1]).as_str(), printed(&[1, 2]).as_str()), ("[]\n", "[1]\n", "[1,\n 2]\n"));
    }
}
