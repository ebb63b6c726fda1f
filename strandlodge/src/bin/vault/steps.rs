//! A path, a name at a time: which entries match it, and what has to be said of the one that is taken.

use crate::names::shown;
use strandlodge::{DirEntry, Matching};

/// So many entries are named in one line.
const NAMED: usize = 8;

/// What a choice does of which every remark speaks.
const WRITTEN: &str = "--as-written accepts only the exact name";

/// How names on a path are matched.
#[derive(Debug, Clone, Copy, PartialEq, Eq, Default)]
pub enum Rule {
    /// The command's own: the very name if there is one, else the only entry that is equal with case ignored, else none. It goes name by name: one that is
    /// written as the disc has it isn't refused for its twin, whatever the others are.
    #[default]
    Safe,
    /// A choice of the calls.
    Call(Matching),
}

impl Rule {
    /// The choice of the call that is made first, and with the names as the disc spells them.
    pub fn call(self) -> Matching {
        match self {
            Rule::Safe => Matching::AsWritten,
            Rule::Call(matching) => matching,
        }
    }
}

/// A name on a path, and the entries of its directory that are equal to it with case ignored, in the disc's order.
pub struct Step<'p> {
    /// What stands in front of it.
    pub above: &'p [u8],
    pub name: &'p [u8],
    alike: Vec<DirEntry>,
}

impl<'p> Step<'p> {
    pub fn new((above, name): (&'p [u8], &'p [u8]), entries: Vec<DirEntry>) -> Step<'p> {
        let alike = entries.into_iter().filter(|entry| entry.name.as_bytes().eq_ignore_ascii_case(name)).collect();
        Step { above, name, alike }
    }

    /// The entries that match.
    fn matches(&self, rule: Rule) -> Vec<&DirEntry> {
        let is_there = self.alike.iter().any(|entry| self.is_written(entry));
        let as_written = rule == Rule::Call(Matching::AsWritten) || rule == Rule::Safe && is_there;
        self.alike.iter().filter(|entry| !as_written || self.is_written(entry)).collect()
    }

    /// More match than one, and none is taken.
    fn is_ambiguous(&self, rule: Rule) -> bool {
        let is_only = match rule {
            Rule::Safe => !self.alike.iter().any(|entry| self.is_written(entry)),
            Rule::Call(matching) => matching == Matching::Unambiguous,
        };
        is_only && self.alike.len() > 1
    }

    fn is_written(&self, entry: &DirEntry) -> bool {
        entry.name.as_bytes() == self.name
    }

    /// The entry that a lookup takes: of several the first, or none.
    pub fn taken(&self, rule: Rule) -> Option<&DirEntry> {
        if self.is_ambiguous(rule) { None } else { self.matches(rule).first().copied() }
    }

    /// What has to be said where the entry that is taken has another name than was asked for, or isn't the only one that matches.
    pub fn remark(&self, rule: Rule) -> Option<String> {
        let matches = self.matches(rule);
        let (given, others) = matches.split_first()?;
        if others.is_empty() {
            let says = format!("{} matched \"{}\", which differs in case", self.asked(), shown(given.name.as_bytes()));
            // Of several none is taken by the command's own rule.
            let more = if rule == Rule::Safe { "" } else { ", --unambiguous refuses if several match" };
            return (!self.is_written(given)).then(|| says + &format!(" ({WRITTEN}{more})"));
        }
        // Of entries that all have the very name no choice gives another than the first.
        let is_told = !matches.iter().all(|entry| self.is_written(entry));
        let cure = if is_told { WRITTEN } else { "--icb tells them apart, --as-written doesn't" };
        let (count, given, others) = (matches.len(), placed(given), listed(others));
        Some(format!("{} matched {given}, the first of {count} that match, not {others} ({cure}, --unambiguous refuses)", self.asked()))
    }

    /// Which entries match, where that is more than one and none is taken.
    pub fn ambiguity(&self, rule: Rule) -> Option<String> {
        let all = self.matches(rule);
        self.is_ambiguous(rule).then(|| format!("{} is ambiguous, {} entries match: {}", self.asked(), all.len(), listed(&all)))
    }

    /// What there is in another case.
    pub fn in_another_case(&self) -> Option<String> {
        let all = self.matches(Rule::Call(Matching::CaseIgnored));
        (!all.is_empty()).then(|| format!("in another case there is {}", listed(&all)))
    }

    /// The name with its place on the path.
    fn asked(&self) -> String {
        format!("\"{}\" under {}", shown(self.name), quoted(self.above))
    }
}

/// An entry by its name and its place, since two may have one name.
fn placed(entry: &DirEntry) -> String {
    format!("\"{}\" in block {}", shown(entry.name.as_bytes()), entry.icb.location.block)
}

fn listed(entries: &[&DirEntry]) -> String {
    let mut named: Vec<String> = entries.iter().take(NAMED).map(|entry| placed(entry)).collect();
    if entries.len() > NAMED {
        named.push(format!("{} more", entries.len() - NAMED));
    }
    named.join(", ")
}

/// The names on a path, each with what stands in front of it. They stand between slashes, and empty ones are dropped.
pub fn names(path: &[u8]) -> impl Iterator<Item = (&[u8], &[u8])> {
    let mut at = 0;
    let parts = path.split(|byte| *byte == b'/').map(move |name| {
        let above = &path[..at];
        at += name.len() + 1;
        (above, name)
    });
    parts.filter(|(_, name)| !name.is_empty())
}

/// A path with each name as the disc spells it, as far as the names are there. No byte changes its place: another case is as long.
pub fn spelled(path: &[u8], steps: &[Step], rule: Rule) -> Vec<u8> {
    let mut spelled = path.to_vec();
    for step in steps {
        let (at, taken) = (step.above.len(), step.taken(rule).map(|entry| entry.name.as_bytes()));
        if let (Some(to), Some(name)) = (spelled.get_mut(at..at + step.name.len()), taken) {
            to.copy_from_slice(name);
        }
    }
    spelled
}

/// A path in quotes; the empty one is the root.
pub fn quoted(path: &[u8]) -> String {
    match trimmed(path) {
        [] => "the root".to_string(),
        path => format!("\"{}\"", shown(path)),
    }
}

/// Without the slashes at its end.
pub fn trimmed(mut path: &[u8]) -> &[u8] {
    while let [front @ .., b'/'] = path {
        path = front;
    }
    path
}

#[cfg(test)]
mod tests {
    use super::{Rule, Step, names, spelled};
    use strandlodge::{DirEntry, LbAddr, LongAd, Matching};

    const FIRST: Rule = Rule::Call(Matching::CaseIgnored);
    const WRITTEN: Rule = Rule::Call(Matching::AsWritten);
    const ONLY: Rule = Rule::Call(Matching::Unambiguous);
    const ALL: [Rule; 4] = [Rule::Safe, FIRST, WRITTEN, ONLY];

    /// A step of entries in blocks 1, 2 and so on.
    fn step<'p>(name: &'p str, entries: &[&str]) -> Step<'p> {
        let icb = |block| LongAd { length: 2048, extent_type: 0, location: LbAddr { block, partition_ref: 0 }, implementation_use: [0; 6] };
        let entry = |(i, name): (usize, &&str)| DirEntry { name: name.to_string(), icb: icb(i as u32 + 1), is_directory: false };
        Step::new((b"SHOW/", name.as_bytes()), entries.iter().enumerate().map(entry).collect())
    }

    #[test]
    fn names_stand_between_slashes() {
        let of = |path: &'static str| names(path.as_bytes()).map(|(above, name)| [above, name].map(|p| str::from_utf8(p).unwrap()));
        assert_eq!(of("").count() + of("/").count() + of("//").count(), 0);
        assert_eq!(of("a").collect::<Vec<_>>(), [["", "a"]]);
        assert_eq!(of("//a//b/").collect::<Vec<_>>(), [["//", "a"], ["//a//", "b"]]);
    }

    #[test]
    fn nothing_is_remarked_of_the_only_entry_of_its_name() {
        for rule in ALL {
            let step = step("9", &["8", "9", "99"]);
            assert_eq!((step.remark(rule), step.taken(rule).map(|e| e.icb.location.block)), (None, Some(2)));
            assert_eq!(self::step("9", &["8"]).remark(rule), None);
        }
        // As it is written another case is another name.
        for rule in [WRITTEN, Rule::Safe] {
            assert_eq!(step("a", &["A", "a"]).remark(rule), None);
            assert_eq!(step("a", &["A", "a"]).taken(rule).map(|e| e.icb.location.block), Some(2));
        }
        assert!(step("a", &["A", "a"]).taken(ONLY).is_none());
    }

    /// The command's own rule: the very name, else the only one, else none.
    #[test]
    fn the_very_name_is_taken_before_any_other() {
        let block = |name, entries: &[&str]| step(name, entries).taken(Rule::Safe).map(|e| e.icb.location.block);
        assert_eq!((block("a", &["A", "a", "a"]), block("a", &["b", "A"]), block("a", &["b"])), (Some(2), Some(2), None));
        assert_eq!((block("aB", &["AB", "ab"]), block("aB", &["AB", "AB"])), (None, None));
        let both = "\"aB\" under \"SHOW\" is ambiguous, 2 entries match: \"AB\" in block 1, \"ab\" in block 2";
        assert_eq!(step("aB", &["AB", "ab"]).ambiguity(Rule::Safe).as_deref(), Some(both));
        assert_eq!((step("ab", &["AB", "ab"]).ambiguity(Rule::Safe), step("aB", &["ab"]).ambiguity(Rule::Safe)), (None, None));
    }

    #[test]
    fn a_path_is_spelled_as_the_disc_has_it() {
        let of = |name, entries: &[&str]| spelled(b"SHOW/10.1a/x", &[step(name, entries)], Rule::Safe);
        assert_eq!(of("10.1a", &["9", "10.1A"]), b"SHOW/10.1A/x");
        assert_eq!((of("10.1a", &["9"]), of("10.1a", &["10.1A", "10.1a"])), (b"SHOW/10.1a/x".to_vec(), b"SHOW/10.1a/x".to_vec()));
    }

    #[test]
    fn another_case_is_remarked() {
        for rule in [FIRST, ONLY] {
            let says = "\"10.1A\" under \"SHOW\" matched \"10.1a\", which differs in case \
                        (--as-written accepts only the exact name, --unambiguous refuses if several match)";
            assert_eq!(step("10.1A", &["9", "10.1a"]).remark(rule).as_deref(), Some(says));
        }
        let says = "\"10.1A\" under \"SHOW\" matched \"10.1a\", which differs in case (--as-written accepts only the exact name)";
        assert_eq!(step("10.1A", &["9", "10.1a"]).remark(Rule::Safe).as_deref(), Some(says));
        assert_eq!(step("10.1A", &["9", "10.1a"]).remark(WRITTEN), None);
    }

    #[test]
    fn other_entries_that_match_are_remarked() {
        let cure = "(--as-written accepts only the exact name, --unambiguous refuses)";
        for (name, entries) in [("a", ["A", "a"]), ("A", ["A", "a"])] {
            let says =
                format!("\"{name}\" under \"SHOW\" matched \"A\" in block 1, the first of 2 that match, not \"a\" in block 2 {cure}");
            assert_eq!(step(name, &entries).remark(FIRST), Some(says));
        }
        let cure = "(--icb tells them apart, --as-written doesn't, --unambiguous refuses)";
        let says = format!("\"a\" under \"SHOW\" matched \"a\" in block 2, the first of 2 that match, not \"a\" in block 3 {cure}");
        assert_eq!(step("a", &["b", "a", "a"]).remark(FIRST).as_ref(), Some(&says));
        for rule in [WRITTEN, Rule::Safe] {
            assert_eq!(step("a", &["A", "a", "a"]).remark(rule).as_ref(), Some(&says));
        }
    }

    #[test]
    fn many_entries_are_counted() {
        let says = step("a", &["A"; 11]).ambiguity(ONLY).unwrap();
        assert!(says.starts_with("\"a\" under \"SHOW\" is ambiguous, 11 entries match: \"A\" in block 1, "), "{says}");
        assert!(says.ends_with("\"A\" in block 8, 3 more"), "{says}");
    }
}
