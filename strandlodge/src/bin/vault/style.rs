//! How entries are printed.

use crate::failure::Failure;
use crate::names::shown_name;
use crate::sizes::Sizes;
use crate::wanted::typed;
use std::io::Write;
use strandlodge::DirEntry;

#[derive(Debug, Clone, Copy, PartialEq, Eq, Default)]
pub struct Style {
    /// One document, for other programs.
    pub is_json: bool,
    /// As it is recorded, with a zero byte behind it.
    pub is_raw: bool,
    /// Each with the place of its entry in front of it.
    pub has_icbs: bool,
    /// Each with its sizes.
    pub is_long: bool,
}

impl Style {
    /// A line for an entry, which goes by this path: as it is recorded, and as it is shown. The sizes are those of a long one.
    pub fn line(self, entry: &DirEntry, sizes: Option<Sizes>, raw: &[u8], text: &str, out: &mut impl Write) -> Result<(), Failure> {
        let icb = if self.has_icbs { typed(entry.icb) + " " } else { String::new() };
        let icb = sizes.map_or(String::new(), Sizes::columns) + &icb;
        let mark = if entry.is_directory { "/" } else { "" };
        let written = match self.is_raw {
            true => out.write_all(&[icb.as_bytes(), raw, mark.as_bytes(), b"\0"].concat()),
            false => writeln!(out, "{icb}{text}{mark}"),
        };
        written.map_err(Failure::output)
    }
}

/// So many bytes.
pub fn bytes(n: impl Into<u64>) -> String {
    match n.into() {
        1 => "1 byte".to_string(),
        n => format!("{n} bytes"),
    }
}

/// An entry by its name.
pub fn listed(entry: &DirEntry) -> String {
    shown_name(&entry.name) + if entry.is_directory { "/" } else { "" }
}
