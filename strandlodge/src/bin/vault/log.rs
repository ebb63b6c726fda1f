//! What goes to standard error beside the answer: the sectors that each call asked for, and remarks.

use crate::json::Json;
use std::io::{self, Write};
use strandlodge::{Answered, Refused};

#[derive(Default)]
pub struct Log {
    calls: Vec<(&'static str, u64)>,
    total: u64,
    pub remarks: Vec<String>,
    /// How many things have a descriptor with a wrong body, and what was said of the last.
    ruined: (u64, String),
}

/// So many of one kind are remarked on, each in a line.
const NAMED: u64 = 8;

impl Log {
    /// Notes a call's count, refused or not, and gives its value.
    pub fn count<T>(&mut self, call: &'static str, answer: Answered<T>) -> std::result::Result<T, Refused> {
        self.sums([(call, sectors(&answer))]);
        answer.map(|answer| answer.value)
    }

    /// Adds a call's count to those of the same call before it, refused or not, and gives its value.
    pub fn add<T>(&mut self, call: &'static str, answer: Answered<T>) -> std::result::Result<T, Refused> {
        let sectors = sectors(&answer);
        self.total = self.total.saturating_add(sectors);
        match self.calls.iter_mut().find(|(name, _)| *name == call) {
            Some((_, sum)) => *sum = sum.saturating_add(sectors),
            None => self.calls.push((call, sectors)),
        }
        answer.map(|answer| answer.value)
    }

    /// Notes calls that were made many times, each with its counts added up.
    pub fn sums(&mut self, calls: impl IntoIterator<Item = (&'static str, u64)>) {
        for one in calls {
            self.total = self.total.saturating_add(one.1);
            self.calls.push(one);
        }
    }

    /// Remarks on a descriptor with a wrong body, once in a row. On a disc whose writer got them all wrong that isn't one line for each file.
    pub fn ruin(&mut self, text: String) {
        if self.ruined.1 == text {
            return;
        }
        self.ruined.0 += 1;
        if self.ruined.0 <= NAMED {
            self.remarks.push(text.clone());
        }
        self.ruined.1 = text;
    }

    /// What is said at the end: the remarks, and how many more wrong bodies there are.
    pub fn said(&self) -> impl Iterator<Item = String> + '_ {
        let more = self.ruined.0.saturating_sub(NAMED);
        let last = (more > 0).then(|| format!("{more} more paths have a descriptor that fails its CRC check: `vault check` lists them"));
        self.remarks.iter().cloned().chain(last)
    }

    /// Takes over what another has, behind what there is.
    pub fn join(&mut self, other: Log) {
        self.sums(other.calls);
        self.remarks.extend(other.remarks);
    }

    /// All sectors that were asked for so far.
    pub fn total(&self) -> u64 {
        self.total
    }

    /// Each call in turn, with its count. The probe has none.
    pub fn sectors(&self) -> String {
        if self.calls.is_empty() {
            return "none are counted".to_string();
        }
        let calls: Vec<String> = self.calls.iter().map(|(call, count)| format!("{call} {count}")).collect();
        calls.join(", ")
    }
}

impl Log {
    /// The same, for a document.
    pub fn json(&self) -> Json {
        let one = |(call, count): &(&'static str, u64)| Json::Object(vec![("call", Json::text(*call)), ("sectors", Json::number(*count))]);
        Json::List(self.calls.iter().map(one).collect())
    }
}

/// The count of a call, refused or not.
pub fn sectors<T>(answer: &Answered<T>) -> u64 {
    answer.as_ref().map_or_else(|refused| refused.sectors, |answer| answer.sectors)
}

/// A line on standard error. Where that is closed there is nobody to tell.
pub fn say(text: &str) {
    let _ = writeln!(io::stderr(), "vault: {text}");
}
