//! The result of a call, and its line in the output of the program `asker`.

use crate::asked::{Call, NO_VOLUME, Query};
use crate::icbs::recorded;
use crate::vault::{UNLIMITED, Volume};

/// The byte that fills lent memory.
pub const CAME: u8 = 0xa5;

/// The result of a call, and how it left the memory that it was lent. What a call doesn't return is zero or empty.
#[derive(Debug, Clone, PartialEq, Eq)]
pub struct Said {
    /// The answer; for the probe, 1 for yes.
    pub answer: u64,
    /// The number of sectors that were asked for.
    pub count: u64,
    /// The number of bytes or slots of the result.
    pub length: u64,
    /// The offset of the component in the path, or of the part in the image.
    pub at: u64,
    /// The volume, from opening.
    pub volume: Volume,
    /// The ICB, from a lookup, as recorded.
    pub icb: [u8; 16],
    /// The written front of the output, the component, or the part.
    pub bytes: Vec<u8>,
    /// The numbers of each written slot.
    pub slots: Vec<Vec<u64>>,
    /// The row of lengths of a list, complete.
    pub lengths: Vec<u64>,
    /// The row of answers of a list, complete.
    pub answers: Vec<u64>,
    /// Whether the memory after the written front is unchanged.
    pub is_kept: bool,
    /// Whether the work space is all zero.
    pub is_zero: bool,
}

impl Said {
    /// An answer without a value, which left the memory as it must.
    pub fn of(answer: u64, count: u64) -> Said {
        let (icb, bytes, slots, lengths, answers) = ([0; 16], Vec::new(), Vec::new(), Vec::new(), Vec::new());
        Said { answer, count, length: 0, at: 0, volume: NO_VOLUME, icb, bytes, slots, lengths, answers, is_kept: true, is_zero: true }
    }

    /// The same with bytes.
    pub fn with(self, bytes: Vec<u8>) -> Said {
        Said { length: bytes.len() as u64, bytes, ..self }
    }

    /// The same with slots.
    pub fn with_slots(self, slots: Vec<Vec<u64>>) -> Said {
        Said { length: slots.len() as u64, slots, ..self }
    }

    /// The same with the results of a list's paths in the two rows that a query lends. The other places are unchanged.
    pub fn with_rows(self, items: &[(u64, u64)], query: &Query) -> Said {
        let row = |of: fn(&(u64, u64)) -> u64, places: u32, came: u64| {
            items.iter().map(of).chain(std::iter::repeat(came)).take(places as usize).collect()
        };
        let lengths = row(|item| item.0, query.slots, u64::from_le_bytes([CAME; 8]));
        let answers = row(|item| item.1, query.answers, u32::from_le_bytes([CAME; 4]).into());
        Said { lengths, answers, ..self }
    }

    /// The line of a call with this result.
    pub fn line(&self, call: Call) -> String {
        let head = format!("{} {} count {}", call.name(), self.answer, self.count);
        let length = format!("{head} length {}", self.length);
        let sum = format!("{length} sum {}", sum(&self.bytes));
        let (kept, zero) = (if self.is_kept { "kept" } else { "changed" }, if self.is_zero { "zero" } else { "dirty" });
        match call {
            Call::Probe => format!("probe {}", if self.answer == 1 { "yes" } else { "no" }),
            Call::Open => head + &volume(&self.volume),
            Call::Label => format!("{sum} {kept} text {}", text(&self.bytes)),
            Call::Lookup => format!("{head} icb {} {zero}", text(&self.icb)),
            Call::Failed => format!("{length} component {} {zero}", text(&self.bytes)),
            Call::List | Call::ReadPath | Call::Show => format!("{sum} {kept} {zero}"),
            Call::Read => format!("{sum} {kept}"),
            Call::Part => sum,
            Call::Extents | Call::Runs => {
                let slots: String = self.slots.iter().map(|slot| format!(" ({})", row(slot.iter().copied()).trim_start())).collect();
                format!("{length}{slots} {kept}")
            }
            Call::ReadAll => {
                let (lengths, answers) = (row(self.lengths.iter().copied()), row(self.answers.iter().copied()));
                format!("{sum} {kept} lengths{lengths} answers{answers} {zero}")
            }
            Call::Measure => length,
            Call::FailedAt => format!("{length} at {} {zero}", self.at),
            Call::PartAt => format!("{length} at {}", self.at),
        }
    }
}

/// A checksum that depends on the position of each byte.
fn sum(bytes: &[u8]) -> u64 {
    bytes.iter().fold(0, |sum, byte| (sum * 31 + u64::from(*byte)) % (1 << 32))
}

/// Printable bytes as they are, any other as \ and two digits.
fn text(bytes: &[u8]) -> String {
    let byte = |b: &u8| if (0x20..0x7f).contains(b) && *b != b'\\' { (*b as char).to_string() } else { format!("\\{b:02x}") };
    bytes.iter().map(byte).collect()
}

/// Numbers, each preceded by a space.
fn row(numbers: impl IntoIterator<Item = impl Into<u64>>) -> String {
    numbers.into_iter().map(|n| format!(" {}", n.into())).collect()
}

fn volume(Volume { mount, root, label }: &Volume) -> String {
    let says = format!(" start {} partition {} checked {} maps {}", mount.start, mount.partition, mount.checked, mount.maps);
    let rows = format!(" volumes{} numbers{} starts{}", row(mount.volumes), row(mount.numbers), row(mount.starts));
    format!("{says}{rows} root {} label {}", text(&recorded(root)), text(label))
}

/// The line before those of a query's calls, on an image of this length. It leaves out what is 0 or empty, the length
/// if it is the whole image, and an unlimited budget.
pub fn asking(q: &Query, length: usize) -> String {
    let there = if q.there as usize == length { String::new() } else { format!(" there {}", q.there) };
    let set = |word: &str, number: u32| if number == 0 { String::new() } else { format!(" {word} {number}") };
    let held =
        |word: &str, bytes: &[u8]| if bytes.iter().all(|byte| *byte == 0) { String::new() } else { format!(" {word} {}", text(bytes)) };
    let most = if q.most == UNLIMITED { String::new() } else { format!(" most {}", q.most) };
    let choices = [set("volume", q.volume), there, set("matching", q.matching), set("levels", q.levels), most].concat();
    let lent = [set("room", q.room), set("work", q.work), set("slots", q.slots), set("answers", q.answers)].concat();
    format!("query{choices}{lent}{}{}", held("icb", &q.icb), held("text", &q.text))
}
