//! The names that `get -r` gives: each stands in its folder and on its line, and no two in one folder are the same.
//!
//! What can't stay is written as %XX, a byte of UTF-8 each: every file system takes that. So is the percent sign itself, and two names that differ stay two.
//! Always so: a slash, a control or format character, and a dot or space at the end, which Windows and some drivers of sticks drop. Where names are to be
//! portable also what Windows and exFAT refuse elsewhere, and the names of devices; a Linux file system takes all of these.

use crate::names::is_tricky;
use std::collections::{HashMap, HashSet};

/// A name has no more bytes on most systems, and room is left for a number.
const LONGEST: usize = 240;

/// What Windows and exFAT refuse in a name, beside what is never left.
const REFUSED: &str = "\"*:<>?\\|";

/// The names of devices, as Windows has them, with anything behind a dot too.
const DEVICES: [&str; 6] = ["CON", "PRN", "AUX", "NUL", "CONIN$", "CONOUT$"];
const NUMBERED: [&str; 2] = ["COM", "LPT"];

/// A name in its folder, and whether it is made up for one that is another's in another case.
#[derive(Debug, PartialEq, Eq)]
pub struct Name {
    pub own: String,
    pub is_twin: bool,
}

/// Names for the entries of one folder, in their order. One that is made up, or has a number, is never that which another entry has by itself.
pub fn names<'n>(entries: impl Iterator<Item = &'n str>, is_portable: bool) -> Vec<Name> {
    let safe: Vec<(String, bool)> = entries.map(|name| safe(name, is_portable)).collect();
    let key = |name: &str| if is_portable { folded(name) } else { name.to_string() };
    let (mut given, mut next) = (HashSet::new(), HashMap::new());
    // First those that have a name of their own, then the others.
    let owns: Vec<bool> = safe.iter().map(|(name, is_whole)| *is_whole && given.insert(key(name))).collect();
    let exact: HashSet<&String> = safe.iter().zip(&owns).filter(|(_, owns)| **owns).map(|((name, _), _)| name).collect();
    let numbered = |((name, is_whole), owns): (&(String, bool), &bool)| {
        if *owns || !is_whole && given.insert(key(name)) {
            return Name { own: name.clone(), is_twin: false };
        }
        let own = free(name, &mut next, |own| given.insert(key(own)));
        Name { own, is_twin: *is_whole && !exact.contains(name) }
    };
    safe.iter().zip(&owns).map(numbered).collect()
}

/// The first of the names with a number behind them that is taken; `next` has the number that the next one of a name begins with.
pub fn free(name: &str, next: &mut HashMap<String, u64>, mut take: impl FnMut(&str) -> bool) -> String {
    let next = next.entry(name.to_string()).or_insert(2);
    loop {
        let own = format!("{name}~{next}");
        *next += 1;
        if take(&own) {
            return own;
        }
    }
}

/// Names that are equal so may be one where case isn't told apart.
pub fn folded(name: &str) -> String {
    name.to_lowercase()
}

/// A name that stands in its folder, and is one line; and whether it is all of the name.
fn safe(name: &str, is_portable: bool) -> (String, bool) {
    let mut text = String::with_capacity(name.len());
    for (at, c) in name.char_indices() {
        let is_last = at + c.len_utf8() == name.len();
        if c == '/' || c == '%' || is_tricky(c) || is_last && (c == '.' || c == ' ') || is_portable && REFUSED.contains(c) {
            escape(c, &mut text);
        } else {
            text.push(c);
        }
    }
    if is_portable && is_device(&text) {
        let mut escaped = String::new();
        text.chars().take(1).for_each(|c| escape(c, &mut escaped));
        text.replace_range(..1, &escaped);
    }
    if text.is_empty() {
        return ("unnamed".to_string(), false);
    }
    let (cut, whole) = ((0..=text.len().min(LONGEST)).rfind(|at| text.is_char_boundary(*at)), text.len());
    text.truncate(cut.unwrap_or(0));
    // What a cut leaves at the end is as bad there.
    if text.ends_with(['.', ' ']) {
        let last = text.pop();
        text.truncate(LONGEST - 3);
        last.into_iter().for_each(|c| escape(c, &mut text));
    }
    let is_whole = text.len() == whole;
    (text, is_whole)
}

fn escape(c: char, text: &mut String) {
    let mut bytes = [0; 4];
    for byte in c.encode_utf8(&mut bytes).bytes() {
        text.push_str(&format!("%{byte:02X}"));
    }
}

fn is_device(name: &str) -> bool {
    let base = name.split('.').next().unwrap_or_default().trim_end_matches(' ');
    let is_numbered = NUMBERED.iter().any(|device| {
        let (front, rest) = base.split_at_checked(device.len()).unwrap_or_default();
        front.eq_ignore_ascii_case(device) && matches!(rest, "0" | "1" | "2" | "3" | "4" | "5" | "6" | "7" | "8" | "9" | "¹" | "²" | "³")
    });
    is_numbered || DEVICES.iter().any(|device| base.eq_ignore_ascii_case(device))
}

#[cfg(test)]
mod tests {
    use super::*;

    fn own(entries: &[&str], is_portable: bool) -> Vec<String> {
        names(entries.iter().copied(), is_portable).into_iter().map(|name| name.own).collect()
    }

    #[test]
    fn a_safe_name_stays_in_its_folder() {
        for name in ["9", "10.1A", "a b", "naïve 日本", "a\\b", "...x", ".hidden", "-x", "CON", "nul.txt", "a:b", "<|>*?\""] {
            assert_eq!(safe(name, false), (name.to_string(), true));
        }
        for (name, written) in [
            (".", "%2E"),
            ("..", ".%2E"),
            ("...", "..%2E"),
            ("trailing.", "trailing%2E"),
            ("two  ", "two %20"),
            ("/", "%2F"),
            ("../../etc/x", "..%2F..%2Fetc%2Fx"),
            ("per%cent", "per%25cent"),
            ("a\0\n\u{202e}", "a%00%0A%E2%80%AE"),
        ] {
            assert_eq!(safe(name, false), (written.to_string(), true));
            assert_eq!(safe(name, true).0, written);
        }
        assert_eq!(safe("", false), ("unnamed".to_string(), false));
        let long = safe(&"é".repeat(254), false).0;
        assert!(long.len() <= LONGEST && long.len() > LONGEST - 2 && long.chars().all(|c| c == 'é'));
        // A cut leaves no dot at the end either.
        let cut = safe(&("x".repeat(239) + ".txt"), false);
        assert!(cut.0.len() <= LONGEST && cut.0.ends_with("x%2E") && !cut.1, "{cut:?}");
    }

    #[test]
    fn a_portable_name_is_taken_everywhere() {
        for (name, written) in [
            ("a\\b", "a%5Cb"),
            ("\"*:<>?|", "%22%2A%3A%3C%3E%3F%7C"),
            ("CON", "%43ON"),
            ("nul.txt", "%6Eul.txt"),
            ("Com1", "%43om1"),
            ("LPT³.x", "%4CPT³.x"),
            ("aux .h", "%61ux .h"),
        ] {
            assert_eq!(safe(name, true), (written.to_string(), true));
        }
        for name in ["CONSOLE", "COM", "COM10", "null", "xNUL", "COMé", "10.1A", "naïve"] {
            assert_eq!(safe(name, true).0, name);
        }
    }

    #[test]
    fn no_two_names_are_one() {
        assert_eq!(own(&["a", "a", "a~2", "a", "A"], false), ["a", "a~3", "a~2", "a~4", "A"]);
        // Those that are made up stand back.
        assert_eq!(own(&["", "unnamed", "", "a/b", "a%2Fb"], false), ["unnamed~2", "unnamed", "unnamed~3", "a%2Fb", "a%252Fb"]);
        assert_eq!(own(&["", ""], false), ["unnamed", "unnamed~2"]);
        // Many of one name take no longer each.
        assert_eq!(own(&["a"; 100_000], false).last().unwrap(), "a~100000");
    }

    #[test]
    fn portable_names_differ_by_more_than_case() {
        let given = names(["10.1A", "10.1a", "10.1A~2", "10.1a"].into_iter(), true);
        let name = |own: &str, is_twin| Name { own: own.to_string(), is_twin };
        assert_eq!(given, [name("10.1A", false), name("10.1a~3", true), name("10.1A~2", false), name("10.1a~4", true)]);
        assert_eq!(names(["a", "a"].into_iter(), true)[1], name("a~2", false));
    }
}
