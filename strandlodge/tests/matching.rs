//! Names of the same letters on one disc: which entry each choice gives, through `Counted` and through the command, and what the command
//! remarks.

mod common;

use common::command::{Folder, Said};
use common::{DELETED, PARENT, TestDisc, identifier, marked, named, show};
use strandlodge::Matching::{self, AsWritten, CaseIgnored, Unambiguous};
use strandlodge::{Answer, Counted, Refusal, Refused};

const UPPER: &str = "cue 10.1A\nfront wash 80, blue backs 40, follow 6 seconds\n";
const LOWER: &str = "cue 10.1a\nfront wash 20, the look before the interval\n";
const ALL: [Matching; 3] = [CaseIgnored, AsWritten, Unambiguous];

/// A disc whose root has these names, each with a file that holds its number, or what `mark` makes of its entry.
fn disc_of(names: &[&str], mark: impl Fn(usize, Vec<u8>) -> Vec<u8>) -> TestDisc {
    let mut disc = TestDisc::new();
    let mut entries = Vec::new();
    for (i, name) in names.iter().enumerate() {
        let block = disc.file(format!("{i}").as_bytes());
        entries.push(mark(i, named(name, block, false)));
    }
    let root = disc.directory(&entries);
    disc.root(root);
    disc
}

fn plain(names: &[&str]) -> TestDisc {
    disc_of(names, |_, entry| entry)
}

/// What each choice reads along a path: the bytes, or the number of the refusal.
fn reads(disc: &TestDisc, path: &str) -> [Result<String, u64>; 3] {
    let vault = Counted::open(&disc.0).unwrap();
    ALL.map(|matching| {
        let read = vault.read_path_as(path, matching).map_err(|refused| refused.number());
        read.map(|bytes| String::from_utf8(bytes.value).unwrap())
    })
}

/// The entries by their numbers, for the three choices.
fn gives(disc: &TestDisc, path: &str, expected: [Result<usize, u64>; 3]) {
    assert_eq!(reads(disc, path), expected.map(|entry| entry.map(|i| i.to_string())), "{path}");
}

#[test]
fn the_two_cues_of_the_show() {
    let image = show();
    let vault = Counted::open(&image).unwrap();
    let cues = vault.read_directory(vault.lookup("SHOW").unwrap()).unwrap();
    let found = |entry: usize| Ok(Answer { value: cues[entry].icb, sectors: 2 });
    let refused = |why, sectors| Err(Refused { why, sectors });
    for (path, expected) in [
        ("SHOW/10.1A", [found(1), found(1), refused(Refusal::Ambiguous, 2)]),
        ("SHOW/10.1a", [found(1), found(2), refused(Refusal::Ambiguous, 2)]),
        ("show/10.1a", [found(1), refused(Refusal::NotBluray, 1), refused(Refusal::Ambiguous, 2)]),
        ("SHOW/9", [found(0), found(0), found(0)]),
        ("show//9/", [found(0), refused(Refusal::NotBluray, 1), found(0)]),
        ("SHOW/12", ALL.map(|_| refused(Refusal::NotBluray, 2))),
        // Before the component that stands under it.
        ("SHOW/10.1A/x", [refused(Refusal::NotBluray, 2), refused(Refusal::NotBluray, 2), refused(Refusal::Ambiguous, 2)]),
    ] {
        assert_eq!(ALL.map(|matching| vault.lookup_as(path, matching)), expected, "{path}");
        assert_eq!(vault.lookup(path), expected[0], "{path}");
    }
    assert_eq!(vault.read_path("SHOW/10.1a").unwrap().value, UPPER.as_bytes());
    assert_eq!(vault.read_path_as("SHOW/10.1a", AsWritten).unwrap(), Answer { value: LOWER.into(), sectors: 4 });
    assert_eq!(vault.read_path_as("SHOW/10.1a", Unambiguous), Err(Refused { why: Refusal::Ambiguous, sectors: 2 }));
    for matching in ALL {
        assert_eq!(vault.lookup_as("", matching).unwrap(), Answer { value: vault.root_directory_icb(), sectors: 0 });
    }
}

/// The component at which nothing is found; one that is ambiguous is none.
#[test]
fn the_component_that_failed() {
    let image = show();
    let vault = Counted::open(&image).unwrap();
    let failed = |path: &'static str| ALL.map(|matching| vault.failed_as(path, matching).map_err(|refused| refused.number()));
    let component = |name: &'static str, sectors| Ok(Answer { value: Some(name.as_bytes()), sectors });
    assert_eq!(failed("SHOW/9"), ALL.map(|_| Ok(Answer { value: None, sectors: 2 })));
    assert_eq!(failed("SHOW/12"), ALL.map(|_| component("12", 2)));
    assert_eq!(failed("show/12"), [component("12", 2), component("show", 1), component("12", 2)]);
    assert_eq!(failed("SHOW/10.1a"), [Ok(Answer { value: None, sectors: 2 }), Ok(Answer { value: None, sectors: 2 }), Err(9)]);
    assert_eq!(failed("SHOW/10.1a/x"), [component("x", 2), component("x", 2), Err(9)]);
}

#[test]
fn names_equal_but_for_case() {
    let disc = plain(&["b", "B", "Ab", "aB", "AB", "one"]);
    gives(&disc, "b", [Ok(0), Ok(0), Err(9)]);
    gives(&disc, "B", [Ok(0), Ok(1), Err(9)]);
    gives(&disc, "ab", [Ok(2), Err(3), Err(9)]);
    gives(&disc, "AB", [Ok(2), Ok(4), Err(9)]);
    gives(&disc, "one", [Ok(5), Ok(5), Ok(5)]);
    gives(&disc, "ONE", [Ok(5), Err(3), Ok(5)]);
    gives(&disc, "on", [Err(3), Err(3), Err(3)]);
    // { isn't a [ in another case, nor ` an @.
    gives(&plain(&["[", "{", "@", "`"]), "{", [Ok(1), Ok(1), Ok(1)]);
}

#[test]
fn names_that_are_equal() {
    let disc = plain(&["a", "x", "x", "X"]);
    gives(&disc, "x", [Ok(1), Ok(1), Err(9)]);
    gives(&disc, "X", [Ok(1), Ok(3), Err(9)]);
    // One name in both widths, and one in which a surrogate is dropped.
    let wide = |units: &[u16]| [&[16][..], &units.iter().flat_map(|unit| unit.to_be_bytes()).collect::<Vec<u8>>()].concat();
    for recorded in [wide(&[0x41, 0x42]), wide(&[0x41, 0xd800, 0x42])] {
        let mut disc = TestDisc::new();
        let blocks = [0, 1].map(|i| disc.file(format!("{i}").as_bytes()));
        let root = disc.directory(&[identifier(&recorded, blocks[0], false), named("AB", blocks[1], false)]);
        disc.root(root);
        gives(&disc, "AB", [Ok(0), Ok(0), Err(9)]);
    }
}

#[test]
fn case_is_that_of_ascii() {
    let mut disc = TestDisc::new();
    let blocks = [0, 1].map(|i| disc.file(format!("{i}").as_bytes()));
    let root = disc.directory(&[identifier(b"\x08\xc9", blocks[0], false), identifier(b"\x08\xe9", blocks[1], false)]);
    disc.root(root);
    gives(&disc, "É", [Ok(0), Ok(0), Ok(0)]);
    gives(&disc, "é", [Ok(1), Ok(1), Ok(1)]);
}

#[test]
fn what_is_not_listed_does_not_match() {
    for mark in [DELETED, PARENT, DELETED | PARENT] {
        for kept in 0..3 {
            let disc = disc_of(&["a", "A", "a"], |i, entry| if i == kept { entry } else { marked(entry, mark) });
            let written = |name: &str| if ["a", "A", "a"][kept] == name { Ok(kept) } else { Err(3) };
            gives(&disc, "a", [Ok(kept), written("a"), Ok(kept)]);
            gives(&disc, "A", [Ok(kept), written("A"), Ok(kept)]);
        }
        gives(&disc_of(&["a", "a"], |_, entry| marked(entry, mark)), "a", [Err(3), Err(3), Err(3)]);
    }
}

/// Two folders of the same letters, each with the cues `first` and `second` of its own, and a third by itself.
fn folders() -> TestDisc {
    let mut disc = TestDisc::new();
    let mut entries = Vec::new();
    for (i, name) in ["Act", "ACT", "other"].iter().enumerate() {
        let blocks = [0, 1].map(|j| disc.file(format!("{}", 2 * i + j).as_bytes()));
        let inner = disc.directory(&[named("first", blocks[0], false), named("second", blocks[1], false)]);
        entries.push(named(name, inner, true));
    }
    let root = disc.directory(&entries);
    disc.root(root);
    disc
}

#[test]
fn a_folder_above_may_be_ambiguous() {
    let disc = folders();
    gives(&disc, "Act/second", [Ok(1), Ok(1), Err(9)]);
    gives(&disc, "ACT/second", [Ok(1), Ok(3), Err(9)]);
    gives(&disc, "act/second", [Ok(1), Err(3), Err(9)]);
    // What stands below isn't looked at.
    gives(&disc, "act/none", [Err(3), Err(3), Err(9)]);
    gives(&disc, "other/First", [Ok(4), Err(3), Ok(4)]);
    let vault = Counted::open(&disc.0).unwrap();
    assert_eq!(vault.lookup_as("ACT/second", Unambiguous), Err(Refused { why: Refusal::Ambiguous, sectors: 2 }));
    assert_eq!(vault.lookup_as("ACT/second", AsWritten).unwrap().sectors, 4);
}

/// A bad entry behind two that match is what refuses.
#[test]
fn a_directory_is_read_first() {
    let disc = disc_of(&["a", "A", "bad"], |i, mut entry| {
        // Another compression id than any.
        entry[38] = if i == 2 { 7 } else { entry[38] };
        entry
    });
    gives(&disc, "a", [Err(2), Err(2), Err(2)]);
}

/// A folder with the image of a disc.
fn with(disc: &TestDisc) -> Folder {
    let folder = Folder::new();
    folder.write("a.img", &disc.0);
    folder
}

fn with_show() -> Folder {
    let folder = Folder::new();
    folder.write("a.img", &show());
    folder
}

/// An answer, and these lines on standard error.
fn remarks(said: &Said, out: &str, lines: &[&str]) {
    let given: Vec<&str> = said.error.lines().map(|line| line.strip_prefix("vault: ").unwrap()).collect();
    assert_eq!((said.status, said.out.as_str(), &given[..]), (0, out, lines));
}

const CASE: &str = "(--as-written accepts only the exact name, --unambiguous refuses if several match)";
const SAFE: &str = "(--as-written accepts only the exact name)";
const BOTH: &str = "(--as-written accepts only the exact name, --unambiguous refuses)";

#[test]
fn the_wrong_look_is_not_given_without_a_word() {
    let folder = with_show();
    for (path, name) in [("SHOW/10.1A", "10.1A"), ("SHOW/10.1a", "10.1a")] {
        let line =
            format!("\"{name}\" under \"SHOW\" matched \"10.1A\" in block 7, the first of 2 that match, not \"10.1a\" in block 9 {BOTH}");
        remarks(&folder.vault(&["cat", "--as-original", "a.img", path]), UPPER, &[&line]);
        remarks(&folder.vault(&["ls", "--as-original", "a.img", path]), "10.1A\n", &[&line]);
        remarks(&folder.vault(&["get", "--as-original", "a.img", path, "cue"]), "", &[&line]);
        assert_eq!(std::fs::read_to_string(folder.at("cue")).unwrap(), UPPER);
        let stat = folder.vault(&["stat", "--as-original", "a.img", path]);
        assert!(stat.out.contains("entry    10.1A\n") && stat.error.contains(&line), "{stat:?}");
    }
    // The very name is taken where nothing else is said.
    for choice in [&[][..], &["--as-written"]] {
        let vault = |words: &[&str]| folder.vault(&[words, choice].concat());
        remarks(&vault(&["cat", "a.img", "SHOW/10.1a"]), LOWER, &[]);
        remarks(&vault(&["cat", "a.img", "SHOW/10.1A"]), UPPER, &[]);
        remarks(&vault(&["get", "a.img", "SHOW/10.1a", "cue"]), "", &[]);
        assert_eq!(std::fs::read_to_string(folder.at("cue")).unwrap(), LOWER);
        let stat = vault(&["stat", "a.img", "SHOW/10.1a"]);
        assert!(stat.out.contains("entry    10.1a\n") && stat.out.contains("block 9,") && stat.error.is_empty(), "{stat:?}");
        remarks(&vault(&["ls", "a.img", "SHOW/10.1a"]), "10.1a\n", &[]);
    }
}

/// What the command gives on any path, held to the choices of the calls, name by name: the very name, else the only one, else 9.
#[test]
fn the_command_s_own_rule_is_made_of_the_choices() {
    let (folder, disc) = (Folder::new(), plain(&["b", "B", "Ab", "aB", "AB", "one", "x", "x", "Cd", "cD"]));
    folder.write("a.img", &disc.0);
    for path in ["b", "B", "ab", "AB", "aB", "one", "ONE", "x", "X", "cd", "CD", "cD", "on", "none"] {
        let [_, written, only] = reads(&disc, path);
        let expected = if written == Err(3) { only } else { written };
        for drive in [&[][..], &["--drive"]] {
            let said = folder.vault(&[&["cat", "a.img", path], drive].concat());
            let given = if said.status == 0 { Ok(said.out) } else { Err(said.status as u64) };
            assert_eq!(given, expected, "{path}");
        }
    }
}

/// A name that is written as the disc has it isn't refused for its twin because another name of the path is in another case.
#[test]
fn each_name_of_a_path_has_the_rule_by_itself() {
    let folder = with(&folders());
    let second = |above: &str| format!("\"Second\" under \"{above}\" matched \"second\", which differs in case {SAFE}");
    for drive in [&[][..], &["--drive"]] {
        let vault = |words: &[&str]| folder.vault(&[words, drive].concat());
        remarks(&vault(&["cat", "a.img", "ACT/Second"]), "3", &[&second("ACT")]);
        remarks(&vault(&["cat", "a.img", "//Act//Second/"]), "1", &[&second("//Act")]);
        let other = format!("\"OTHER\" under the root matched \"other\", which differs in case {SAFE}");
        remarks(&vault(&["cat", "a.img", "OTHER/Second"]), "5", &[&other, &second("OTHER")]);
        let acts = "\"act\" under the root is ambiguous, 2 entries match: \"Act\" in block 21, \"ACT\" in block 27";
        refuses(&folder, &[&["cat", "a.img", "act/second"], drive].concat(), 9, acts);
        refuses(&folder, &[&["ls", "a.img", "OTHER/none/x"], drive].concat(), 3, "there is nothing named \"none\" under \"OTHER\"");
        refuses(&folder, &[&["ls", "a.img", "ACT/First/x"], drive].concat(), 3, "there is nothing named \"x\" under \"ACT/First\"");
    }
    // What is asked for beside the calls of a path that is written as it stands.
    let said = folder.vault(&["--sectors", "ls", "a.img", "ACT/Second"]);
    let calls = "open 6, lookup 4, read_directory 2, read_directory 2, lookup 4";
    assert_eq!(said.error.lines().nth(1), Some(format!("vault: sectors asked for: {calls}").as_str()), "{said:?}");
}

/// A body that isn't the one that its tag has the CRC of, on the way to a file: it is taken as it stands, and said.
#[test]
fn a_wrong_body_on_the_way_is_said() {
    let folder = Folder::new();
    std::fs::create_dir(folder.at("to")).unwrap();
    let (start, whole) = (288 * common::SECTOR, show());
    let says = "fails its CRC check and was used anyway (--checked refuses it; `vault check` lists all such descriptors)";
    // The root's entry, that of SHOW, and that of cue 9: bytes that nothing is read by.
    for (block, line) in [
        (3, format!("a.img: \"SHOW/9\": a descriptor on the way to it {says}")),
        (4, format!("a.img: \"SHOW/9\": a descriptor on the way to it {says}")),
        (5, format!("a.img: \"SHOW/9\": a descriptor on the way to it {says}")),
    ] {
        let mut image = whole.clone();
        image[start + block * common::SECTOR + 40] ^= 1;
        folder.write("a.img", &image);
        for words in [
            &["cat", "a.img", "SHOW/9"][..],
            &["get", "a.img", "SHOW/9", "cue"],
            &["get", "a.img", "-o", "to", "SHOW/9"],
            &["stat", "a.img", "SHOW/9"],
        ] {
            let said = folder.vault(words);
            assert_eq!((said.status, said.error), (0, format!("vault: {line}\n")), "{block} {words:?}");
            assert_eq!(folder.vault(&[words, &["--checked"]].concat()).status, if words[0] == "get" && words.len() == 5 { 67 } else { 10 });
        }
        // What isn't on the way isn't looked at.
        let other = folder.vault(&["cat", "a.img", "SHOW/11"]);
        assert_eq!((other.status, other.error.lines().count()), (0, usize::from(block != 5)), "{other:?}");
        // All of the disc, and what a directory holds.
        let said = folder.vault(&["get", "-r", "a.img", "-o", "to"]);
        let about = [("the root", "of this directory"), ("\"SHOW\"", "of this directory"), ("\"SHOW/9\"", "on the way to it")][block - 3];
        assert_eq!((said.status, said.error), (0, format!("vault: a.img: {}: a descriptor {} {says}\n", about.0, about.1)));
        let said = folder.vault(&["ls", "a.img", "SHOW"]);
        assert_eq!((said.status, said.error.lines().count()), (0, [1, 1, 0][block - 3].max(usize::from(block == 4))), "{said:?}");
    }
}

/// The volume's own; and of a disc on which all are wrong a few are named.
#[test]
fn wrong_bodies_are_not_a_line_each() {
    let (folder, mut image) = (Folder::new(), show());
    std::fs::create_dir(folder.at("to")).unwrap();
    let says = "fails its CRC check and was used anyway (--checked refuses it; `vault check` lists all such descriptors)";
    image[32 * common::SECTOR + 100] ^= 1;
    folder.write("a.img", &image);
    let said = folder.vault(&["cat", "a.img", "SHOW/9"]);
    assert_eq!((said.status, said.error), (0, format!("vault: a.img: a descriptor of the volume {says}\n")));
    let mut disc = plain(&["0", "1", "2", "3", "4", "5", "6", "7", "8", "9"]);
    let entries: Vec<usize> = (0..10).map(|n| (288 + 17 + 2 * n) * common::SECTOR).collect();
    entries.iter().for_each(|at| disc.0[at + 40] ^= 1);
    folder.write("a.img", &disc.0);
    let said = folder.vault(&["get", "-r", "a.img", "-o", "to"]);
    assert_eq!((said.status, said.error.lines().count()), (0, 9), "{said:?}");
    assert!(said.error.ends_with("vault: 2 more paths have a descriptor that fails its CRC check: `vault check` lists them\n"), "{said:?}");
}

/// A disc that holds 10.1a alone, asked for 10.1A; and every name of a path.
#[test]
fn a_name_in_another_case_is_remarked() {
    let folder = with(&plain(&["9", "10.1a"]));
    let line = format!("\"10.1A\" under the root matched \"10.1a\", which differs in case {CASE}");
    remarks(&folder.vault(&["cat", "--as-original", "a.img", "10.1A"]), "1", &[&line]);
    remarks(&folder.vault(&["cat", "--unambiguous", "a.img", "/10.1A"]), "1", &[&line]);
    remarks(&folder.vault(&["cat", "a.img", "10.1A"]), "1", &[&line.replace(CASE, SAFE)]);
    remarks(&folder.vault(&["cat", "a.img", "10.1a"]), "1", &[]);
    remarks(&folder.vault(&["cat", "--unambiguous", "a.img", "10.1a"]), "1", &[]);
    let folder = with_show();
    let line = format!("\"show\" under the root matched \"SHOW\", which differs in case {SAFE}");
    remarks(&folder.vault(&["cat", "a.img", "show/9"]), "cue 9\nhouse lights to half\n", &[&line]);
    remarks(&folder.vault(&["ls", "a.img", "/show/"]), "9\n10.1A\n10.1a\n11\n", &[&line]);
    remarks(&folder.vault(&["ls", "a.img"]), "SHOW/\n", &[]);
}

#[test]
fn each_name_of_a_path_has_its_line() {
    let folder = with(&folders());
    let act = format!("\"act\" under the root matched \"Act\" in block 21, the first of 2 that match, not \"ACT\" in block 27 {BOTH}");
    let second = format!("\"Second\" under \"act\" matched \"second\", which differs in case {CASE}");
    remarks(&folder.vault(&["cat", "--as-original", "a.img", "act/Second"]), "1", &[&act, &second]);
    remarks(&folder.vault(&["cat", "--as-original", "a.img", "act//second"]), "1", &[&act]);
    remarks(&folder.vault(&["ls", "--as-original", "a.img", "act"]), "first\nsecond\n", &[&act]);
    remarks(&folder.vault(&["cat", "--as-written", "a.img", "ACT/second"]), "3", &[]);
    remarks(&folder.vault(&["cat", "a.img", "other/second"]), "5", &[]);
}

/// Whichever command takes a path, and however the disc is read.
#[test]
fn every_command_with_a_path_remarks() {
    let folder = with_show();
    std::fs::create_dir(folder.at("to")).unwrap();
    for drive in [&[][..], &["--drive"]] {
        for words in [
            &["ls", "a.img", "show/10.1a"][..],
            &["ls", "-R", "a.img", "show/10.1a"],
            &["ls", "--json", "a.img", "show/10.1a"],
            &["tree", "a.img", "show/10.1a"],
            &["cat", "a.img", "show/10.1a"],
            &["stat", "a.img", "show/10.1a"],
            &["get", "a.img", "show/10.1a", "cue"],
            &["get", "-r", "a.img", "-o", "to", "show/10.1a"],
        ] {
            let said = folder.vault(&[words, drive, &["--as-original"]].concat());
            let lines: Vec<&str> = said.error.lines().collect();
            assert!(said.status == 0 && lines.len() == 2, "{words:?} {said:?}");
            assert!(lines.iter().all(|line| line.contains("--as-written") && line.contains("--unambiguous")), "{words:?} {said:?}");
            // By the command's own rule it is one line: the cue has the very name.
            let said = folder.vault(&[words, drive].concat());
            let line = format!("vault: \"show\" under the root matched \"SHOW\", which differs in case {SAFE}\n");
            assert_eq!((said.status, said.error), (0, line), "{words:?}");
        }
    }
    assert_eq!(folder.vault(&["get", "--as-original", "a.img", "-o", "to", "show/10.1a"]).error.lines().count(), 2);
    assert_eq!(folder.vault(&["cat", "--as-original", "--wait", "0", "a.img", "show/10.1a"]).error.lines().count(), 2);
    assert_eq!(folder.vault(&["cat", "--wait", "0", "a.img", "show/10.1a"]).out, LOWER);
}

/// No choice gives the second of two entries with one name; both that answer say so.
#[test]
fn a_second_entry_of_the_very_name_is_remarked() {
    let folder = with(&plain(&["x", "x", "y"]));
    let line = "\"x\" under the root matched \"x\" in block 17, the first of 2 that match, not \"x\" in block 19 \
                (--icb tells them apart, --as-written doesn't, --unambiguous refuses)";
    remarks(&folder.vault(&["cat", "a.img", "x"]), "0", &[line]);
    remarks(&folder.vault(&["cat", "--as-written", "a.img", "x"]), "0", &[line]);
    remarks(&folder.vault(&["cat", "--as-written", "a.img", "y"]), "2", &[]);
    let folder = with(&plain(&["X", "x", "x"]));
    let said = folder.vault(&["cat", "--as-written", "a.img", "x"]);
    assert!(said.out == "1" && said.error.contains("the first of 2 that match") && said.error.lines().count() == 1, "{said:?}");
    let said = folder.vault(&["cat", "a.img", "x"]);
    assert!(said.out == "1" && said.error.contains("the first of 2 that match") && said.error.lines().count() == 1, "{said:?}");
    let said = folder.vault(&["cat", "--as-original", "a.img", "x"]);
    assert!(said.out == "0" && said.error.contains("the first of 3 that match") && said.error.contains(BOTH), "{said:?}");
}

#[test]
fn what_is_not_listed_is_not_remarked() {
    for mark in [DELETED, PARENT] {
        let folder = with(&disc_of(&["a", "A", "a"], |i, entry| if i == 2 { entry } else { marked(entry, mark) }));
        for choice in [&[][..], &["--as-written"], &["--unambiguous"], &["--as-original"]] {
            remarks(&folder.vault(&[choice, &["cat", "a.img", "a"]].concat()), "2", &[]);
        }
    }
}

/// One sentence, with the number of the refusal, which is the status, and with no sector behind it: no sector is at fault. Nothing is written.
fn refuses(folder: &Folder, words: &[&str], status: i32, sentence: &str) {
    let before = folder.names();
    let said = folder.vault(words);
    let expected = format!("vault: a.img: {sentence} (refusal {status})\n");
    assert_eq!((said.status, said.out.as_str(), said.error.as_str()), (status, "", expected.as_str()), "{words:?}");
    assert_eq!(folder.names(), before, "{words:?}");
}

#[test]
fn an_ambiguous_name_is_refused_with_the_entries() {
    let folder = with_show();
    let both = "\"10.1a\" under \"SHOW\" is ambiguous, 2 entries match: \"10.1A\" in block 7, \"10.1a\" in block 9";
    for words in [&["cat", "a.img", "SHOW/10.1a"][..], &["ls", "a.img", "SHOW/10.1a"], &["stat", "a.img", "SHOW/10.1a/below"]] {
        refuses(&folder, &[&["--unambiguous"], words].concat(), 9, both);
    }
    refuses(&folder, &["get", "a.img", "SHOW/10.1a", "cue", "--unambiguous"], 9, both);
    let folder = with(&folders());
    let acts = "\"ACT\" under the root is ambiguous, 2 entries match: \"Act\" in block 21, \"ACT\" in block 27";
    refuses(&folder, &["--unambiguous", "cat", "a.img", "ACT/second"], 9, acts);
    refuses(&folder, &["--unambiguous", "ls", "a.img", "ACT"], 9, acts);
    let many = with(&plain(&["x"; 20]));
    let said = many.vault(&["--unambiguous", "cat", "a.img", "X"]);
    assert!(said.status == 9 && said.error.contains("is ambiguous, 20 entries match: \"x\" in block 17, "), "{said:?}");
    assert!(said.error.ends_with(", 12 more (refusal 9)\n") && said.error.lines().count() == 1, "{said:?}");
}

#[test]
fn a_name_that_is_not_there_as_written() {
    let folder = with_show();
    let line = "there is nothing named \"show\" under the root; in another case there is \"SHOW\" in block 4";
    refuses(&folder, &["--as-written", "cat", "a.img", "show/10.1a"], 3, line);
    refuses(&folder, &["--as-written", "ls", "a.img", "SHOW/12"], 3, "there is nothing named \"12\" under \"SHOW\"");
    refuses(&folder, &["--as-written", "ls", "a.img", "SHOW/9/x"], 3, "there is nothing named \"x\" under \"SHOW/9\"");
    refuses(&folder, &["--unambiguous", "ls", "a.img", "SHOW/9/x"], 3, "there is nothing named \"x\" under \"SHOW/9\"");
}

/// A disc that was closed again, and whose older descriptor leads to an older show: what isn't there is there by the highest.
#[test]
fn an_older_show_names_the_newer() {
    let (folder, mut image) = (Folder::new(), common::reclosed());
    // The older partition starts 20 sectors further on, and has a copy of the first blocks with a root in which nothing stands.
    image.resize(image.len().max(340 * common::SECTOR), 0);
    image[35 * common::SECTOR + 188..][..4].copy_from_slice(&308u32.to_le_bytes());
    common::seal(&mut image[35 * common::SECTOR..], common::VOLUME_BODY);
    image.copy_within(288 * common::SECTOR..292 * common::SECTOR, 308 * common::SECTOR);
    let root = 311 * common::SECTOR;
    image[root + 56..root + 64].fill(0);
    image[root + 172..root + 176].fill(0);
    folder.write("a.img", &image);
    let cure = "; the disc was closed again later: --highest finds it\n";
    let said = folder.vault(&["cat", "a.img", "SHOW/9"]);
    assert_eq!(said.error, format!("vault: a.img: there is nothing named \"SHOW\" under the root (refusal 3){cure}"));
    assert_eq!(folder.vault(&["cat", "--highest", "a.img", "SHOW/9"]).status, 0);
    assert!(!folder.vault(&["cat", "a.img", "SHOW/none"]).error.contains("--highest"));
    // One that doesn't open otherwise.
    folder.write("a.img", &common::reclosed());
    for words in [&["label", "a.img"][..], &["ls", "a.img"], &["check", "a.img"], &["survey", "a.img"]] {
        let said = folder.vault(words);
        let cure = "; it was closed again later: --highest opens it; the last sector asked for";
        assert!(said.status != 0 && said.error.contains(cure), "{words:?} {said:?}");
        // The older descriptors don't stand where they say.
        assert_eq!(folder.vault(&[words, &["--highest"]].concat()).status, if words[0] == "check" { 65 } else { 0 }, "{words:?}");
    }
    assert!(!folder.vault(&["ls", "a.img", "--drive"]).error.contains("--highest"));
}

#[test]
fn the_calls_of_a_choice_are_counted() {
    let folder = with_show();
    let said = folder.vault(&["--sectors", "--unambiguous", "cat", "a.img", "SHOW/10.1a"]);
    let calls = "vault: sectors asked for: open 6, lookup 2, read_directory 1, read_directory 1";
    assert_eq!((said.status, said.error.lines().next()), (9, Some(calls)));
}
