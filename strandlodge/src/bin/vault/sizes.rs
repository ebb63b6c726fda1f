//! How large a file is: what its entry says, what a read gives, and in how many extents it stands.

use crate::disc::{OpenDisc, Volume};
use crate::json::Json;
use crate::style::bytes;
use strandlodge::{LongAd, Refusal};

/// The sizes of what an ICB names. What can't be told is none: on a drive the last two, which take an image.
#[derive(Clone, Copy, PartialEq, Eq, Debug, Default)]
pub struct Sizes {
    /// The information length.
    pub information: Option<u64>,
    /// The bytes that a read gives, or why it gives none.
    pub read: Option<Result<u64, Refusal>>,
    pub extents: Option<u64>,
}

impl<V: Volume> OpenDisc<'_, V> {
    /// The sectors of the calls are added up over all that is asked for.
    pub fn sizes(&mut self, icb: LongAd) -> Sizes {
        let information = self.volume.entry(icb).map(|entry| entry.information_length);
        let (read, extents) = (self.volume.measure(icb), self.volume.extent_count(icb));
        let read = read.map(|answer| self.log.add("measure", answer).map_err(Refusal::from));
        let extents = extents.and_then(|answer| self.log.add("extents", answer).ok());
        Sizes { information, read, extents }
    }
}

impl Sizes {
    /// In columns.
    pub fn columns(self) -> String {
        let said = |number: Option<u64>| number.map_or("-".to_string(), |number| number.to_string());
        let read = match self.read {
            Some(Err(why)) => format!("refused:{}", why.number()),
            read => said(read.and_then(Result::ok)),
        };
        format!("{:>12} {read:>12} {:>6} ", said(self.information), said(self.extents))
    }

    /// A line for what the entry says, and one for what a read gives, where that can be told.
    pub fn lines(self) -> Vec<String> {
        let length = self.information.map(|length| format!("length   {}, as its entry says", bytes(length)));
        let read = self.read.map(|read| match read {
            Ok(read) => format!("read     {}", bytes(read)),
            Err(why) => format!("read     none: {why} (refusal {})", why.number()),
        });
        length.into_iter().chain(read).collect()
    }

    /// For a document: the answer number is that of the read.
    pub fn json(self) -> Vec<(&'static str, Json)> {
        let answer = self.read.map(|read| read.err().map_or(0, Refusal::number));
        vec![
            ("information_length", Json::maybe(self.information, Json::number)),
            ("bytes", Json::maybe(self.read.and_then(Result::ok), Json::number)),
            ("answer", Json::maybe(answer, Json::number)),
            ("extent_count", Json::maybe(self.extents, Json::number)),
        ]
    }
}

#[cfg(test)]
mod tests {
    use super::*;

    #[test]
    fn what_is_not_known_is_left_open() {
        let none = Sizes::default();
        assert_eq!((none.columns().as_str(), none.lines()), ("           -            -      - ", vec![]));
        let refused = Sizes { information: Some(7), read: Some(Err(Refusal::Io)), extents: Some(2) };
        assert_eq!(refused.columns(), "           7    refused:1      2 ");
        assert!(refused.lines()[1].starts_with("read     none: a sector") && refused.lines()[1].ends_with("(refusal 1)"));
    }
}
