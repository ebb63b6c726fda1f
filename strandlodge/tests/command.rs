//! The built command: what it prints, how it ends, and that bad input leaves nothing behind.

mod common;

use common::asked::images;
use common::command::{Folder, Said, left_out, tool};
use common::{SECTOR, TestDisc, VOLUME_BODY, harm, identifier, named, noise, reclosed, seal, show};
use std::ffi::OsStr;
use std::os::unix::ffi::OsStrExt;
use std::process::{Command, Stdio};
use strandlodge::{Counted, ShowEntry, UNLIMITED};
use strandlodge_sys::asked::Image;
use strandlodge_sys::sparse;

const BLACKOUT: &str = "cue 11\nblackout\n";

fn with_show() -> Folder {
    let folder = Folder::new();
    folder.write("show.img", &show());
    folder
}

/// An answer on standard output, and nothing on standard error.
fn answers(said: &Said, out: &str) {
    assert_eq!((said.status, said.out.as_str(), said.error.as_str()), (0, out, ""));
}

/// What the probe says where there is no recognition sequence, with a status that isn't that of a yes.
fn is_no(said: &Said) {
    assert_eq!((said.status, said.out.as_str(), said.error.as_str()), (65, "no\n", ""));
}

#[test]
fn no_words_give_the_tour() {
    let folder = Folder::new();
    let said = folder.vault::<&str>(&[]);
    assert_eq!((said.status, said.error.as_str()), (0, ""));
    // Either cue by its own name, and by the original's rule the first; and the other choices.
    for line in [
        "10.1A\n10.1a\n",
        "front wash 80",
        "$ vault cat show.img SHOW/10.1A\ncue 10.1A\n",
        "$ vault cat show.img SHOW/10.1a\ncue 10.1a\n",
        "$ vault cat --as-original show.img SHOW/10.1a\ncue 10.1A\n",
        "is ambiguous, 2 entries match",
        "entry    10.1a\n",
    ] {
        assert!(said.out.contains(line), "{line}");
    }
    assert!(folder.names().is_empty());
}

/// What the tour prints behind each $ is what the command prints.
#[test]
fn the_tour_can_be_typed() {
    let folder = Folder::new();
    answers(&folder.vault(&["sample", "show.img"]), "");
    let stored = sparse::expand(include_bytes!("../src/bin/vault/sample")).unwrap();
    assert!(std::fs::read(folder.at("show.img")).unwrap() == stored);
    let tour = folder.vault::<&str>(&[]).out;
    let mut typed = 0;
    for step in tour.split("\n\n").filter_map(|step| step.strip_prefix("$ vault ")) {
        let (line, answer) = step.split_once('\n').unwrap();
        let said = folder.vault(&line.split(' ').collect::<Vec<_>>());
        assert_eq!((said.out + &said.error).trim_end(), answer, "{line}");
        typed += 1;
    }
    assert_eq!(typed, 11);
}

/// The sample is a disc with all that one has, read in each way that there is.
#[test]
fn the_sample_is_a_whole_disc() {
    let folder = Folder::new();
    answers(&folder.vault(&["sample", "show.img"]), "");
    answers(&folder.vault(&["probe", "show.img"]), "yes\n");
    for how in [&[][..], &["--checked"], &["--maps"], &["--highest"], &["--checked", "--maps", "--highest"]] {
        let right = "21 descriptors, each in place and with a right body\n";
        answers(&folder.vault(&[how, &["check", "show.img"]].concat()), right);
        answers(&folder.vault(&[how, &["cat", "show.img", "SHOW/11"]].concat()), BLACKOUT);
        answers(&folder.vault(&[how, &["ls", "-R", "show.img"]].concat()), "SHOW/\nSHOW/9\nSHOW/10.1A\nSHOW/10.1a\nSHOW/11\n");
    }
    let info = folder.vault(&["info", "show.img"]).out;
    for line in
        ["label    SHOW 1", "volume   SHOW 1", "revision UDF 1.02", "state    closed, by sector 64", "holds    files: 4, directories: 2"]
    {
        assert!(info.lines().any(|there| there == line), "{line} {info}");
    }
    // Its files are those of the show that the other tests look at.
    folder.write("bare.img", &show());
    for path in ["9", "10.1A", "10.1a", "11"].map(|cue| format!("SHOW/{cue}")) {
        let cat = |image| folder.vault(&["cat", "--as-written", image, &path]).out;
        assert_eq!(cat("show.img"), cat("bare.img"));
    }
}

/// The stored sample is what its tool writes.
#[test]
fn the_sample_is_that_of_its_tool() {
    let Some(python) = tool("python3") else {
        return left_out("the sample beside its tool", "python3");
    };
    let script = concat!(env!("CARGO_MANIFEST_DIR"), "/../tools/sample_image.py");
    answers(&Said::of(Command::new(python).args([script, "--check"]).output().unwrap()), "");
}

#[test]
fn every_command_answers() {
    let folder = with_show();
    answers(&folder.vault(&["label", "show.img"]), "SHOW 1\n");
    answers(&folder.vault(&["ls", "show.img"]), "SHOW/\n");
    answers(&folder.vault(&["ls", "show.img", "/SHOW/"]), "9\n10.1A\n10.1a\n11\n");
    answers(&folder.vault(&["ls", "show.img", "SHOW/9"]), "9\n");
    answers(&folder.vault(&["cat", "show.img", "SHOW/11"]), BLACKOUT);
    is_no(&folder.vault(&["probe", "show.img"]));
    answers(&folder.vault(&["check", "show.img"]), "19 descriptors, each in place and with a right body\n");
    answers(&folder.vault(&["get", "show.img", "SHOW/11", "cue"]), "");
    assert_eq!(std::fs::read_to_string(folder.at("cue")).unwrap(), BLACKOUT);
    let stat = "path     SHOW/11\nentry    11\nkind     file\nicb      block 11, partition 5, 2048 bytes, type 0\n\
                length   16 bytes, as its entry says\nread     16 bytes\n\
                storage  extents: 1\nextent   16 bytes, type 0 (recorded), block 12, partition none\n\
                sectors  open 6, lookup 2, read_directory 1, read_directory 1, part 1, extents 1, measure 2\n";
    answers(&folder.vault(&["stat", "show.img", "SHOW/11"]), stat);
    let stat = "path     \nentry    none, this is the root\nkind     directory\nicb      block 3, partition 5, 2048 bytes, type 0\n\
                length   84 bytes, as its entry says\nread     84 bytes\n\
                storage  embedded, 84 bytes\nsectors  open 6, lookup 0, part 1, extents 1, measure 1\n";
    answers(&folder.vault(&["stat", "show.img", ""]), stat);
    assert!(folder.vault(&["--help"]).out.contains("vault get IMAGE PATH FILE"));
    assert!(folder.vault(&["--help"]).out.contains("vault get IMAGE -o TO PATH.."));
}

#[test]
fn the_sample_as_a_tree() {
    let folder = with_show();
    let drawn = "/\n└── SHOW/\n    ├── 9\n    ├── 10.1A\n    ├── 10.1a\n    └── 11\n1 directory, 4 files\n";
    answers(&folder.vault(&["tree", "show.img"]), drawn);
    answers(&folder.vault(&["tree", "show.img", "--levels", "2", "--checked"]), drawn);
    answers(&folder.vault(&["tree", "show.img", "SHOW"]), "SHOW/\n├── 9\n├── 10.1A\n├── 10.1a\n└── 11\n0 directories, 4 files\n");
    answers(
        &folder.vault(&["tree", "show.img", "/SHOW/", "--levels", "1"]),
        "/SHOW/\n├── 9\n├── 10.1A\n├── 10.1a\n└── 11\n0 directories, 4 files\n",
    );
    answers(&folder.vault(&["tree", "show.img", "SHOW/9"]), "9\n");
    let paths = "SHOW/\nSHOW/9\nSHOW/10.1A\nSHOW/10.1a\nSHOW/11\n";
    answers(&folder.vault(&["ls", "-R", "show.img"]), paths);
    answers(&folder.vault(&["ls", "show.img", "SHOW", "-R"]), paths.strip_prefix("SHOW/\n").unwrap());
    assert_eq!(folder.vault(&["tree", "show.img", "--sectors"]).error, "vault: sectors asked for: open 6, lookup 0, read_directory 2\n");
    // The last level has a directory: it is drawn, and that it isn't looked into is said.
    let said = folder.vault(&["tree", "show.img", "--levels", "1"]);
    assert_eq!((said.status, said.out.as_str()), (11, "/\n└── SHOW/\n1 directory, 0 files\n"));
    let says = "show.img: 1 directory at level 1, the last level, not looked into: \"SHOW\" (refusal 11); --levels 2 shows more";
    assert_eq!(said.error, format!("vault: {says}\n"));
    assert_eq!(folder.vault(&["tree", "show.img", "NONE"]).status, 3);
}

/// What is said of an image that wants more than the limit.
fn stopped(name: &str, limit: &str, so: &str) -> String {
    let cure = "The disc may be malicious. Use --limit N for another limit, or --no-limit for none.";
    format!("vault: {name}: stopped after {limit} sectors, the limit{so}. {cure}\n")
}

/// Opening takes 6 sectors, each of the two directories one, and an entry that is shown counts as one.
#[test]
fn a_tree_stops_at_its_limit() {
    let folder = with_show();
    for (limit, lines) in [("1", 0), ("6", 0), ("7", 0), ("8", 1), ("9", 1), ("12", 4)] {
        for drive in [&[][..], &["--drive"]] {
            let said = folder.vault(&[&["ls", "-R", "show.img", "--limit", limit], drive].concat());
            assert_eq!((said.status, said.out.lines().count(), said.error), (68, lines, stopped("show.img", limit, "")));
        }
    }
    for limit in [&["--limit", "13"][..], &["--limit", "18446744073709551615"], &["--no-limit"], &[]] {
        let said = folder.vault(&[&["ls", "-R", "show.img"], limit].concat());
        assert_eq!((said.status, said.out.lines().count()), (0, 5));
    }
    // With -l the sizes of each entry are asked for too.
    let long = |limit| folder.vault(&["ls", "-R", "-l", "show.img", "--limit", limit]).status;
    let said = folder.vault(&["ls", "-R", "-l", "show.img", "--sectors"]);
    assert_eq!(said.error, "vault: sectors asked for: open 6, lookup 0, measure 9, extents 5, read_directory 2\n");
    assert_eq!((long("26"), long("27")), (68, 0));
}

/// What `check` asks for beside opening: each entry, and a directory's bytes and extents.
#[test]
fn a_check_stops_at_its_limit() {
    let folder = with_show();
    for limit in [&["--limit", "16"][..], &["--no-limit"], &[]] {
        answers(&folder.vault(&[&["check", "show.img"], limit].concat()), "19 descriptors, each in place and with a right body\n");
    }
    for limit in ["1", "6", "7", "15"] {
        let said = folder.vault(&["check", "show.img", "--limit", limit]);
        assert_eq!((said.status, said.out.as_str()), (68, ""), "{said:?}");
        let (front, cure) =
            (format!("vault: show.img: stopped after {limit} sectors, the limit; so far: descriptors: "), ". The disc may be malicious");
        assert!(said.error.starts_with(&front) && said.error.contains(cure), "{said:?}");
    }
    let said = folder.vault(&["check", "show.img", "--limit", "15", "--json"]);
    assert!(said.status == 68 && said.out.contains("\"unread\": 0, \"stopped\": 15, \"refused\": null, \"findings\": []}"), "{said:?}");
    assert!(folder.vault(&["check", "show.img", "--json"]).out.contains("\"stopped\": null"));
}

/// Directories with more paths than could ever be walked: each command ends by itself.
#[test]
fn a_disc_that_was_made_to_do_harm_holds_no_command() {
    let (folder, disc) = (Folder::new(), harm(14));
    folder.write("harm.img", &disc.0);
    std::fs::create_dir(folder.at("to")).unwrap();
    let limit = (500_000 + 4 * disc.0.len() / SECTOR).to_string();
    for words in
        [&["tree", "harm.img"][..], &["ls", "-R", "harm.img"], &["ls", "-R", "-l", "harm.img"], &["ls", "-R", "harm.img", "--drive"]]
    {
        let said = folder.vault(words);
        assert_eq!((said.status, said.error), (68, stopped("harm.img", &limit, "")), "{words:?}");
        assert!(said.out.lines().count() > 100_000 && said.out.lines().count() < 500_000, "{words:?}");
    }
    let said = folder.vault(&["tree", "--json", "harm.img", "--limit", "1000"]);
    assert!(said.status == 68 && said.out.starts_with("[{") && said.out.ends_with("}]\n"), "{said:?}");
    // These take each directory once.
    let said = folder.vault(&["check", "harm.img"]);
    assert!(said.status == 65 && !said.error.contains("limit"), "{said:?}");
    let said = folder.vault(&["get", "-r", "harm.img", "-o", "to"]);
    assert!(said.status == 67 && said.out.lines().count() == 20 && !said.error.contains("limit"), "{said:?}");
}

/// Directories of overlapping extents, each many times as long as the disc: a few of them are more than a limit.
#[test]
fn directories_that_overlap_hold_no_command() {
    let (folder, mut disc) = (Folder::new(), TestDisc::new());
    std::fs::create_dir(folder.at("to")).unwrap();
    // An identifier that has a block to itself, by its bytes for other uses.
    let (head, name, other) = (identifier(b"", 5, false), b"\x08cue", SECTOR - 42);
    let block = [&head[..19], &[4], &head[20..36], &(other as u16).to_le_bytes(), &vec![0; other], name].concat();
    let first = disc.lay(&common::sealed(block).repeat(64));
    let extents: Vec<u8> = (0..230).flat_map(|_| common::short_ad(64 * SECTOR, first)).collect();
    let entries: Vec<Vec<u8>> = (0..40)
        .map(|n| {
            let below = disc.entry(0, &extents, 230 * 64 * SECTOR as u64);
            named(&format!("{n}"), below, true)
        })
        .collect();
    let root = disc.directory(&entries);
    disc.root(root);
    folder.write("over.img", &disc.0);
    let limit = "50000";
    let said = folder.vault(&["check", "over.img", "--limit", limit]);
    assert!(
        said.status == 68 && said.error.starts_with(&format!("vault: over.img: stopped after {limit} sectors, the limit; so far: ")),
        "{}",
        said.error
    );
    let said = folder.vault(&["get", "-r", "over.img", "-o", "to", "--limit", limit]);
    assert_eq!((said.status, said.error), (68, stopped("over.img", limit, "; nothing was written")));
}

/// A directory of two names for the root: 2^16 paths at the last level.
#[test]
fn a_directory_that_holds_itself() {
    let folder = Folder::new();
    let mut disc = TestDisc::new();
    let root = disc.directory(&[named("a", 3, true), named("cue\u{1b}", 5, false)]);
    disc.root(root);
    folder.write("one.img", &disc.0);
    let said = folder.vault(&["ls", "-R", "one.img"]);
    assert_eq!((said.status, said.out.lines().count()), (11, 32));
    assert!(said.out.starts_with("a/\na/a/\n") && said.out.contains("a/a/cue\\u{1b}\na/cue\\u{1b}\ncue\\u{1b}\n"), "{said:?}");
    let last = format!("vault: one.img: 1 directory at level 16, the last level, not looked into: \"{}a\" (refusal 11)\n", "a/".repeat(15));
    assert_eq!(said.error, last);

    let root = disc.directory(&[named("a", 3, true), named("b", 3, true)]);
    disc.root(root);
    folder.write("two.img", &disc.0);
    let said = folder.vault(&["tree", "two.img", "--limit", "1000"]);
    // Beside the opening each directory takes its entry and one more sector.
    assert!(said.status == 68 && (300..600).contains(&said.out.lines().count()), "{said:?}");
    let said = folder.vault(&["tree", "two.img"]);
    assert_eq!((said.status, said.out.lines().count()), (11, (1 << 17) - 2 + 2));
    assert!(said.error.contains("65536 directories at level 16, the last level, not looked into"), "{}", said.error);
}

/// A directory that can't be read is named, and what stands behind it is shown; the status is that of its refusal.
#[test]
fn a_tree_names_what_it_cannot_read() {
    let folder = Folder::new();
    let mut disc = TestDisc::new();
    let below = disc.directory(&[named("x", 5, false), named("gone", 900_000, true), named("z", 5, false)]);
    let root = disc.directory(&[named("a", 5, false), named("d", below, true), named("b", 5, false)]);
    disc.root(root);
    folder.write("a.img", &disc.0);
    let said = folder.vault(&["tree", "a.img"]);
    let drawn = "/\n├── a\n├── d/\n│   ├── x\n│   ├── gone/\n│   └── z\n└── b\n2 directories, 4 files\n";
    assert_eq!((said.status, said.out.as_str()), (1, drawn));
    let place = "(refusal 1); the last sector asked for was 900288, for a file entry: it isn't there";
    let lines: Vec<&str> = said.error.lines().collect();
    assert!(lines[0].starts_with("vault: a.img: \"d/gone\": a sector is missing") && lines[0].ends_with(place), "{said:?}");
    assert_eq!(lines[1..], ["vault: a.img: 1 directory can't be listed; the rest is shown"]);
    for drive in [&[][..], &["--drive"]] {
        let said = folder.vault(&[&["ls", "-R", "a.img"], drive].concat());
        assert_eq!((said.status, said.out.as_str(), said.error.lines().count()), (1, "a\nd/\nd/x\nd/gone/\nd/z\nb\n", 2), "{said:?}");
    }
    let said = folder.vault(&["ls", "-R", "--json", "a.img"]);
    assert!(said.status == 1 && said.out.lines().count() == 7 && said.out.ends_with("}]\n"), "{said:?}");
    let row = " {\"level\": 2, \"path\": \"d/gone\", \"refused\": {\"answer\": 1, \"status\": 1, \"says\": \"a.img: ";
    assert!(said.out.lines().nth(4).unwrap().starts_with(row), "{said:?}");
    // What is asked for itself, and the status of the first of several, also where one stands too deep.
    assert_eq!(folder.vault(&["ls", "-R", "a.img", "d/gone"]).status, 1);
    assert!(folder.vault(&["ls", "-R", "--json", "a.img", "d/gone"]).out.starts_with("{\"refused\": {\"answer\": 1,"));
    let bad: Vec<Vec<u8>> = (0..10).map(|n| named(&format!("b{n}"), if n == 0 { 0 } else { 900_000 + n }, true)).collect();
    let root = disc.directory(&[bad, vec![named("d", below, true)]].concat());
    disc.root(root);
    folder.write("a.img", &disc.0);
    let said = folder.vault(&["tree", "a.img", "--levels", "2"]);
    assert_eq!((said.status, said.out.lines().count(), said.error.lines().count()), (2, 16, 10), "{said:?}");
    assert!(
        said.error.contains("the last level, not looked into: \"d/gone\"") && said.error.contains("10 directories can't be listed"),
        "{said:?}"
    );
}

/// What is listed by its place and is a file isn't an empty directory.
#[test]
fn a_file_by_its_place_is_not_listed() {
    let folder = with_show();
    folder.write("empty.img", &{
        let mut disc = TestDisc::new();
        let (file, directory) = (disc.file(b""), disc.entry(3, b"", 0));
        let root = disc.directory(&[named("file", file, false), named("directory", directory, true)]);
        disc.root(root);
        // The type of a directory (4/14.6.6): what holds nothing says so by nothing else.
        let at = (288 + directory as usize) * SECTOR;
        disc.0[at + 27] = 4;
        seal(&mut disc.0[at..], 160);
        disc.0
    });
    let says = "is a file, and an ICB has no name to list: use `vault stat` or `vault cat`";
    for (words, image) in
        [(&["ls"][..], "show.img"), (&["ls", "-R"], "show.img"), (&["tree"], "show.img"), (&["ls", "--drive"], "show.img")]
    {
        refuses(&folder, &[words, &[image, "--icb", "9:5"]].concat(), 64, says);
    }
    let places: Vec<String> =
        folder.vault(&["ls", "-i", "empty.img"]).out.lines().map(|line| line.split(' ').next().unwrap().to_string()).collect();
    refuses(&folder, &["ls", "empty.img", "--icb", &places[0]], 64, says);
    answers(&folder.vault(&["ls", "empty.img", "--icb", &places[1]]), "");
    refuses(&folder, &["ls", "show.img", "--icb", "0"], 2, "(refusal 2)");
    answers(&folder.vault(&["ls", "show.img", "--icb", "4:5"]), "9\n10.1A\n10.1a\n11\n");
}

/// With `--json` what is refused is a document too: an object, whatever the answer would be.
#[test]
fn a_refusal_is_a_document() {
    let folder = with_show();
    folder.write("short", &show()[..290 * 2048]);
    for (words, answer, status) in [
        (&["ls", "show.img", "no"][..], "3", 3),
        (&["ls", "-R", "show.img", "no"], "3", 3),
        (&["tree", "short"], "1", 1),
        (&["stat", "show.img", "show/10.1A/x"], "3", 3),
        (&["stat", "none"], "null", 66),
        (&["info", "none"], "null", 66),
        (&["check", "none"], "null", 66),
        (&["ls", "--drive", "short"], "1", 1),
    ] {
        let said = folder.vault(&[words, &["--json"]].concat());
        let front = format!("{{\"refused\": {{\"answer\": {answer}, \"status\": {status}, \"says\": \"");
        assert!(said.status == status && said.out.starts_with(&front) && said.out.ends_with("\"}}\n"), "{words:?} {said:?}");
        // The same sentence as on standard error, written out.
        let says = said.error.trim_end().strip_prefix("vault: ").unwrap().replace('\\', "\\\\").replace('"', "\\\"");
        assert!(said.out.contains(&says), "{words:?} {said:?}");
    }
    // Documents that say more than that have a field for it.
    for words in [&["info", "short", "--json"][..], &["check", "short", "--json"]] {
        let said = folder.vault(words);
        assert!(said.status == 1 && said.out.contains("\"refused\": {\"answer\": 1, \"status\": 1,"), "{words:?} {said:?}");
        assert!(said.out.lines().count() == 1 && !said.out.starts_with("{\"refused"), "{words:?} {said:?}");
    }
    assert_eq!(folder.vault(&["ls", "show.img", "--json", "--levels", "2"]).out, "");
}

#[test]
fn numbers_are_said_as_they_are_counted() {
    let (folder, mut disc) = (Folder::new(), TestDisc::new());
    let (one, short) = (disc.file(b"1"), disc.entry(3, b"1", 1));
    let root = disc.directory(&[named("one", one, false), named("short", short, false)]);
    disc.root(root);
    folder.write("a.img", &disc.0);
    std::fs::create_dir(folder.at("to")).unwrap();
    let stat = folder.vault(&["stat", "a.img", "one"]).out;
    assert!(stat.contains("length   1 byte, as its entry says\nread     1 byte\n") && stat.contains("extent   1 byte, type 0"), "{stat}");
    assert!(folder.vault(&["stat", "a.img", "short"]).out.contains("storage  embedded, 1 byte\n"));
    assert_eq!(folder.vault(&["get", "a.img", "-o", "to", "one"]).out, "one: 1 byte, to to/one\n");
    assert_eq!(folder.vault(&["get", "-r", "a.img", "-o", "to"]).out, "one: 1 byte, to to/one\nshort: 1 byte, to to/short\n");
}

/// What `ls -R` prints is what a show gives, or the show is refused.
#[test]
fn paths_are_those_of_a_show() {
    let folder = Folder::new();
    let mut compared = 0;
    for Image { name, bytes: image, .. } in images("trees") {
        folder.write("a.img", &image);
        let vault = Counted::open(&image).unwrap();
        let said = folder.vault(&["ls", "-R", "-0", "a.img"]);
        match vault.show(16, UNLIMITED) {
            Ok(show) => {
                let line = |one: ShowEntry| one.path + if one.entry.is_directory { "/\0" } else { "\0" };
                assert_eq!((said.status, said.out), (0, show.into_iter().map(line).collect()), "{name}");
                compared += 1;
            }
            Err(refused) => assert_eq!(said.status, refused.number() as i32, "{name}"),
        }
    }
    assert!(compared > 50, "{compared}");
}

#[test]
fn the_descriptors_of_a_volume() {
    let folder = with_show();
    folder.write("old.img", &reclosed());
    let found = "found    sector 32, primary volume, number 1, prevails\nfound    sector 33, partition, number 2, prevails\n\
                 found    sector 34, logical volume, number 3, prevails\n";
    let none = "maps     none\n";
    let volume = "label    SHOW 1\nstart    sector 288, partition 5\nroot     block 3, partition 5, 2048 bytes, type 0\n";
    answers(&folder.vault(&["stat", "show.img"]), &format!("{found}{none}{volume}sectors  open 6, label 6\n"));
    answers(&folder.vault(&["stat", "--highest", "show.img"]), &format!("{found}{none}{volume}sectors  open 6, label 6\n"));
    let older = "found    sector 35, partition, number 1\n";
    answers(&folder.vault(&["stat", "old.img", "--highest"]), &format!("{found}{older}{none}{volume}sectors  open 7, label 7\n"));
    // Refused, and the descriptors say why: the older one prevailed.
    let said = folder.vault(&["stat", "old.img"]);
    let (newer, older) = ("found    sector 33, partition, number 2\n", "found    sector 35, partition, number 1, prevails\n");
    assert!(said.out.contains(newer) && said.out.ends_with(&format!("{older}{none}")), "{said:?}");
    assert_eq!((said.status, said.error.lines().count()), (2, 1));
}

#[test]
fn every_command_that_opens_can_go_by_the_highest_number() {
    let folder = with_show();
    folder.write("old.img", &reclosed());
    for words in [&["label", "old.img"][..], &["ls", "old.img"], &["cat", "old.img", "SHOW/9"], &["stat", "old.img", "SHOW/9"]] {
        assert_eq!(folder.vault(words).status, 2, "{words:?}");
        let (highest, shown) =
            (folder.vault(&[words, &["--highest"]].concat()), folder.vault(&[&words[..1], &["show.img"], &words[2..]].concat()));
        // One sector more: the sequence has another descriptor.
        assert_eq!((highest.status, highest.out.replace("open 7", "open 6")), (0, shown.out), "{words:?}");
    }
    assert_eq!(folder.vault(&["get", "old.img", "SHOW/9", "cue"]).status, 2);
    answers(&folder.vault(&["get", "old.img", "SHOW/9", "cue", "--highest"]), "");
    assert_eq!(std::fs::read_to_string(folder.at("cue")).unwrap(), folder.vault(&["cat", "show.img", "SHOW/9"]).out);
    assert_eq!(folder.vault(&["probe", "old.img", "--highest"]).out, folder.vault(&["probe", "show.img"]).out);
}

/// The sample show with one bit flipped in the body of a descriptor, where nothing stands that is read.
fn scratched(sector: usize, at: usize) -> Vec<u8> {
    let mut image = show();
    image[sector * SECTOR + at] ^= 0x10;
    image
}

/// The anchor, each descriptor of the sequence, the file set's, the entries of the root, of SHOW and of cue 9.
const BODIES: [(usize, usize); 8] = [(256, 80), (32, 80), (33, 80), (34, 80), (290, 80), (291, 40), (292, 40), (293, 40)];

/// Every command on the show, but those that open nothing.
const OPENING: [&[&str]; 6] = [
    &["label", "a.img"],
    &["ls", "a.img"],
    &["ls", "a.img", "SHOW"],
    &["cat", "a.img", "SHOW/9"],
    &["stat", "a.img", "SHOW/9"],
    &["stat", "a.img"],
];

#[test]
fn a_disc_with_right_bodies_is_read_checked_as_it_is_unchecked() {
    let folder = Folder::new();
    folder.write("a.img", &show());
    for words in OPENING.into_iter().chain([&["check", "a.img"][..], &["probe", "a.img"]]) {
        let (plain, checked) = (folder.vault(words), folder.vault(&[words, &["--checked"]].concat()));
        assert_eq!((plain.status, plain.out, plain.error), (checked.status, checked.out, checked.error), "{words:?}");
    }
    answers(&folder.vault(&["--checked", "get", "a.img", "SHOW/11", "cue"]), "");
    assert_eq!(std::fs::read_to_string(folder.at("cue")).unwrap(), BLACKOUT);
}

/// A wrong body on the way of a command refuses it where bodies are checked, with what to try. Unchecked it is remarked on, by who looks at a path; elsewhere
/// nothing is seen of it.
#[test]
fn every_command_that_opens_can_check_bodies() {
    let (folder, sound) = (Folder::new(), Folder::new());
    sound.write("a.img", &show());
    for (i, (sector, at)) in BODIES.into_iter().enumerate() {
        folder.write("a.img", &scratched(sector, at));
        for words in OPENING {
            let shown = sound.vault(words);
            let (plain, checked) = (folder.vault(words), folder.vault(&[&["--checked"], words].concat()));
            assert_eq!((plain.status, &plain.out), (0, &shown.out), "{words:?} {sector}");
            // Of the entries the root's is on the way of every path, and then SHOW's and the cue's.
            let on_the_way = match words {
                ["label", _] | ["stat", _] => i < 5,
                ["ls", _] => i < 6,
                ["ls", ..] => i < 7,
                _ => true,
            };
            let is_said = on_the_way && !matches!(words, ["label", _] | ["stat", _]);
            assert_eq!(
                plain.error.lines().filter(|line| line.contains("fails its CRC check")).count(),
                usize::from(is_said),
                "{words:?} {plain:?}"
            );
            if !on_the_way {
                assert_eq!((checked.status, checked.out, checked.error.as_str()), (0, shown.out, ""), "{words:?} {sector}");
                continue;
            }
            let says = ["a descriptor fails its CRC check", "(refusal 10); `vault check` lists", "without --checked"];
            assert_eq!((checked.status, checked.error.lines().count()), (10, 1), "{words:?} {checked:?}");
            assert!(says.iter().all(|part| checked.error.contains(part)), "{words:?} {checked:?}");
        }
        refuses(&folder, &["get", "--checked", "a.img", "SHOW/9", "cue"], 10, "(refusal 10)");
        let said = folder.vault(&["get", "a.img", "SHOW/9", "cue"]);
        assert_eq!((said.status, said.error.lines().count()), (0, 1), "{said:?}");
        std::fs::remove_file(folder.at("cue")).unwrap();
        // The check finds it either way.
        assert_eq!((folder.vault(&["check", "a.img"]).status, folder.vault(&["check", "a.img"]).out.lines().count()), (65, 1));
    }
}

/// The descriptors up to the one that is refused for its body, and both choices at once.
#[test]
fn the_descriptors_of_a_checked_volume() {
    let folder = Folder::new();
    folder.write("a.img", &scratched(34, 80));
    let said = folder.vault(&["stat", "--checked", "a.img"]);
    let found = "found    sector 32, primary volume, number 1\nfound    sector 33, partition, number 2\n";
    assert_eq!((said.status, said.out.as_str()), (10, found));
    folder.write("a.img", &reclosed());
    assert_eq!(folder.vault(&["label", "--checked", "a.img"]).status, 2);
    answers(&folder.vault(&["label", "--checked", "--highest", "a.img"]), "SHOW 1\n");
}

/// A copy gives what a map gives, refusals and remarks too.
#[test]
fn a_copied_image_answers_the_same() {
    let folder = with_show();
    for words in [
        &["label", "show.img"][..],
        &["ls", "show.img"],
        &["ls", "show.img", "SHOW"],
        &["cat", "show.img", "SHOW/10.1a"],
        &["cat", "--as-written", "show.img", "SHOW/10.1a"],
        &["cat", "--unambiguous", "show.img", "SHOW/10.1a"],
        &["stat", "show.img", "SHOW/11"],
        &["stat", "show.img"],
        &["probe", "show.img"],
        &["check", "show.img"],
        &["cat", "show.img", "no"],
        &["--sectors", "ls", "show.img", "SHOW/9"],
        &["--checked", "cat", "show.img", "SHOW/9"],
    ] {
        let (mapped, copied) = (folder.vault(words), folder.vault(&[&["--copy"], words].concat()));
        assert_eq!((mapped.status, mapped.out, mapped.error), (copied.status, copied.out, copied.error), "{words:?}");
    }
    answers(&folder.vault(&["get", "show.img", "SHOW/11", "cue", "--copy"]), "");
    assert_eq!(std::fs::read_to_string(folder.at("cue")).unwrap(), BLACKOUT);
    refuses(&folder, &["--copy", "get", "show.img", "SHOW/9", "./show.img"], 64, "this is the image itself: choose another file");
}

#[test]
fn sectors_are_counted_on_standard_error() {
    let folder = with_show();
    let said = folder.vault(&["--sectors", "cat", "show.img", "SHOW/11"]);
    assert_eq!((said.status, said.out.as_str()), (0, BLACKOUT));
    assert_eq!(said.error, "vault: sectors asked for: open 6, lookup 2, read_directory 1, read_directory 1, read_file 2\n");
    let said = folder.vault(&["ls", "show.img", "no", "--sectors"]);
    assert_eq!(
        (said.status, said.error.lines().next()),
        (3, Some("vault: sectors asked for: open 6, lookup 1, read_directory 1, failed 1"))
    );
    let said = folder.vault(&["ls", "show.img", "no", "--sectors", "--as-original"]);
    assert_eq!((said.status, said.error.lines().next()), (3, Some("vault: sectors asked for: open 6, lookup 1, failed 1")));
    assert_eq!(folder.vault(&["--sectors", "probe", "show.img"]).error, "vault: sectors asked for: none are counted\n");
}

/// One sentence that has `phrase` in it, nothing on standard output, and nothing written.
fn refuses(folder: &Folder, words: &[&str], status: i32, phrase: &str) {
    let before = folder.names();
    let said = folder.vault(words);
    assert_eq!((said.status, said.out.as_str(), said.error.lines().count()), (status, "", 1), "{words:?} {said:?}");
    assert!(said.error.starts_with("vault: ") && said.error.contains(phrase), "{words:?} {said:?}");
    assert_eq!(folder.names(), before, "{words:?}");
}

#[test]
fn bad_images_are_refused_by_every_command() {
    let (folder, image) = (with_show(), show());
    std::fs::create_dir(folder.at("folder")).unwrap();
    folder.write("empty", b"");
    folder.write("short", &image[..256 * 2048]);
    folder.write("cut", &image[..290 * 2048]);
    folder.write("random", &noise(1 << 20));
    let bad = [
        ("none", 66, "no such file"),
        ("folder", 66, "this is a directory"),
        ("empty", 1, "a sector is missing"),
        ("short", 1, "a sector is missing"),
        ("cut", 1, "a sector is missing"),
        ("random", 2, "is invalid"),
    ];
    for (image, status, phrase) in bad {
        refuses(&folder, &["label", image], status, phrase);
        refuses(&folder, &["ls", image], status, phrase);
        refuses(&folder, &["check", image], status, phrase);
        refuses(&folder, &["ls", image, "SHOW"], status, phrase);
        refuses(&folder, &["cat", image, "SHOW/9"], status, phrase);
        refuses(&folder, &["cat", image, "SHOW/9", "--copy"], status, phrase);
        refuses(&folder, &["stat", image, "SHOW/9"], status, phrase);
        refuses(&folder, &["get", image, "SHOW/9", "new"], status, phrase);
    }
    refuses(&folder, &["probe", "none"], 66, "no such file");
    refuses(&folder, &["probe", "folder"], 66, "this is a directory");
    for image in ["empty", "short", "random"] {
        is_no(&folder.vault(&["probe", image]));
    }
}

#[test]
fn a_pipe_is_no_image() {
    let folder = with_show();
    let piped = |words: &[&str], bytes: &[u8]| {
        let mut child = folder.command(words).stdin(Stdio::piped()).stdout(Stdio::piped()).stderr(Stdio::piped()).spawn().unwrap();
        // Where nobody reads it, it can't be written.
        let _ = std::io::Write::write_all(&mut child.stdin.take().unwrap(), bytes);
        Said::of(child.wait_with_output().unwrap())
    };
    let said = piped(&["label", "/dev/stdin"], b"");
    assert_eq!((said.status, said.error.contains("a pipe?") && said.error.contains("use --copy")), (66, true), "{said:?}");
    // Read into memory it is one.
    answers(&piped(&["--copy", "label", "/dev/stdin"], &show()), "SHOW 1\n");
    answers(&piped(&["cat", "/dev/stdin", "SHOW/11", "--copy"], &show()), BLACKOUT);
    assert_eq!(piped(&["--copy", "survey", "/dev/stdin"], &show()).status, 0);
    let (big, mut disc) = (noise(5_000_000), TestDisc::new());
    let file = disc.file(&big);
    let root = disc.directory(&[named("big", file, false)]);
    disc.root(root);
    assert!(piped(&["cat", "--copy", "/dev/stdin", "big"], &disc.0).bytes == big);
    assert_eq!(piped(&["--copy", "label", "/dev/stdin"], b"").status, 1);
}

#[test]
fn bad_paths_are_refused() {
    let folder = with_show();
    for command in ["ls", "cat", "stat"] {
        refuses(&folder, &[command, "show.img", "SHOW/12"], 3, "there is nothing named \"12\" under \"SHOW\"");
        refuses(&folder, &[command, "show.img", "no/12"], 3, "there is nothing named \"no\" under the root");
        refuses(&folder, &[command, "show.img", "SHOW/9/x"], 3, "there is nothing named \"x\" under \"SHOW/9\"");
        refuses(&folder, &[command, "show.img", "\u{1b}[2J"], 3, "there is nothing named \"\\u{1b}[2J\" under the root");
    }
    refuses(&folder, &["get", "show.img", "SHOW/12", "new"], 3, "\"12\"");
    refuses(&folder, &["cat", "show.img", "SHOW"], 64, "\"SHOW\" is a directory");
    refuses(&folder, &["get", "show.img", "", "new"], 64, "the root is a directory");
    let said = folder.vault(&[OsStr::new("cat"), OsStr::new("show.img"), OsStr::from_bytes(b"\xff/9")]);
    assert_eq!((said.status, said.error.contains("\"\\xff\"")), (3, true), "{said:?}");
    // A NUL can't be handed to a command: the system refuses to start it.
    assert!(folder.command(&["cat", "show.img", "SHOW/9\0"]).output().is_err());
}

#[test]
fn wrong_usage_is_said() {
    let folder = with_show();
    refuses(&folder, &["lable", "show.img"], 64, "unknown command lable");
    refuses(&folder, &["label"], 64, "label needs IMAGE");
    refuses(&folder, &["cat", "show.img"], 64, "cat needs PATH");
    refuses(&folder, &["get", "show.img", "SHOW/9"], 64, "get needs FILE");
    refuses(&folder, &["get", "show.img", "-o", "."], 64, "get needs PATH");
    refuses(&folder, &["get", "show.img", "SHOW/9", "-o"], 64, "-o needs a folder");
    refuses(&folder, &["get", "show.img", "SHOW/9", "SHOW/11", "cue"], 64, "cue follows");
    refuses(&folder, &["cat", "show.img", "SHOW/9", "-o", "."], 64, "-o works only with get");
    refuses(&folder, &["stat"], 64, "stat needs IMAGE");
    refuses(&folder, &["sample"], 64, "sample needs FILE");
    refuses(&folder, &["ls", "show.img", "SHOW", "more"], 64, "more follows");
    refuses(&folder, &["-l", "show.img"], 64, "-l works only with ls");
    refuses(&folder, &["-q", "show.img"], 64, "unknown option -q");
    refuses(&folder, &["--as-written", "--unambiguous", "ls", "show.img"], 64, "use only one of");
    refuses(&folder, &["ls", "show.img", "--levels=2"], 64, "--levels works only with tree and ls -R (see `vault ls --help`)");
    refuses(&folder, &["make", "-V", "NAME", "show.img"], 64, "-V prints the version of vault; it is not an option of make");
    assert_eq!(folder.vault(&["help", "ls"]).out, folder.vault(&["ls", "--help"]).out);
    assert_eq!(folder.vault(&["help"]).out, folder.vault(&["--help"]).out);
    assert_eq!(folder.vault(&["ls", "-Rl", "show.img", "--levels=2"]).out, folder.vault(&["ls", "-R", "-l", "show.img"]).out);
    refuses(&folder, &["--as-written", "label", "show.img"], 64, "work only with ls");
    refuses(&folder, &["--unambiguous"], 64, "work only with ls");
    refuses(&folder, &["\u{1b}[2J"], 64, "\\u{1b}[2J");
}

#[test]
fn get_writes_the_file_whole_or_not_at_all() {
    let folder = with_show();
    std::fs::create_dir(folder.at("folder")).unwrap();
    folder.write("old", b"an older cue that is longer than the new one, and is replaced");
    answers(&folder.vault(&["get", "show.img", "SHOW/11", "old"]), "");
    assert_eq!(std::fs::read_to_string(folder.at("old")).unwrap(), BLACKOUT);
    std::os::unix::fs::symlink("old", folder.at("link")).unwrap();
    answers(&folder.vault(&["get", "--as-written", "show.img", "SHOW/10.1a", "link"]), "");
    assert!(std::fs::read_to_string(folder.at("old")).unwrap().starts_with("cue 10.1a\n"));
    assert!(folder.at("link").is_symlink());
    refuses(&folder, &["get", "show.img", "SHOW/9", "folder"], 74, "this is a directory");
    refuses(&folder, &["get", "show.img", "SHOW/9", "none/new"], 74, "can't write this file");
    refuses(&folder, &["get", "show.img", "SHOW/9", "/dev/null"], 74, "not a regular file");
    refuses(&folder, &["get", "show.img", "SHOW/9", ""], 74, "this is not the name of a file");
    refuses(&folder, &["get", "show.img", "SHOW/9", "./show.img"], 64, "this is the image itself: choose another file");
    assert_eq!(folder.names(), ["folder", "link", "old", "show.img"]);
    assert!(std::fs::read(folder.at("show.img")).unwrap() == show());
}

/// The show, and a folder `to`.
fn with_folder() -> Folder {
    let folder = with_show();
    std::fs::create_dir(folder.at("to")).unwrap();
    folder
}

/// The names in `to`.
fn taken(folder: &Folder) -> Vec<String> {
    let names = std::fs::read_dir(folder.at("to")).unwrap().map(|entry| entry.unwrap().file_name().into_string().unwrap());
    let mut names: Vec<String> = names.collect();
    names.sort();
    names
}

#[test]
fn many_files_are_written_to_a_folder() {
    let folder = with_folder();
    let said = folder.vault(&["get", "show.img", "-o", "to", "SHOW/9", "SHOW/11", "--as-written", "/SHOW//10.1a"]);
    let nine = folder.vault(&["cat", "show.img", "SHOW/9"]).bytes;
    let out = format!("SHOW/9: {} bytes, to to/9\nSHOW/11: 16 bytes, to to/11\n/SHOW//10.1a: 54 bytes, to to/10.1a\n", nine.len());
    answers(&said, &out);
    assert_eq!(taken(&folder), ["10.1a", "11", "9"]);
    assert_eq!(std::fs::read(folder.at("to/9")).unwrap(), nine);
    assert_eq!(std::fs::read_to_string(folder.at("to/11")).unwrap(), BLACKOUT);
    assert!(std::fs::read_to_string(folder.at("to/10.1a")).unwrap().starts_with("cue 10.1a\n"));
    // One path will do, and what is there is replaced.
    folder.write("to/11", b"an older cue that is longer than the new one");
    answers(&folder.vault(&["get", "show.img", "SHOW/11", "-o", "to"]), "SHOW/11: 16 bytes, to to/11\n");
    assert_eq!(std::fs::read_to_string(folder.at("to/11")).unwrap(), BLACKOUT);
    let said = folder.vault(&["--sectors", "get", "show.img", "SHOW/11", "SHOW/9", "-o", "to/"]);
    let calls =
        "open 6, lookup 2, read_directory 1, read_directory 1, lookup 2, read_directory 1, read_directory 1, read_file 2, read_file 2";
    assert_eq!((said.status, said.error), (0, format!("vault: sectors asked for: {calls}\n")));
}

/// What can't be had is told of, with a line each, and the rest is written; the status says so.
#[test]
fn many_files_go_on_past_a_refused_one() {
    let folder = with_folder();
    let said = folder.vault(&["get", "show.img", "-o", "to", "SHOW/12", "SHOW/11", "SHOW", "no/9", "SHOW/9"]);
    assert_eq!(said.status, 67, "{said:?}");
    assert!(said.out.starts_with("SHOW/11: 16 bytes, to to/11\nSHOW/9: ") && said.out.lines().count() == 2, "{said:?}");
    let errors: Vec<&str> = said.error.lines().collect();
    assert_eq!(errors[0], "vault: show.img: there is nothing named \"12\" under \"SHOW\" (refusal 3)");
    assert!(errors[1].contains("\"SHOW\" is a directory") && errors[2].contains("\"no\" under the root"), "{said:?}");
    assert_eq!(errors[3..], ["vault: show.img: 3 of 5 files not written"]);
    assert_eq!(taken(&folder), ["11", "9"]);
    // A cue whose bytes can't be read: its entry leads beyond the image.
    let mut image = show();
    image[299 * SECTOR + 176 + 6] = 0x7f;
    folder.write("bad.img", &image);
    let said = folder.vault(&["get", "bad.img", "-o", "to", "SHOW/11", "SHOW/10.1A", "--as-written"]);
    assert_eq!((said.status, said.out.as_str()), (67, "SHOW/10.1A: 57 bytes, to to/10.1A\n"));
    assert!(said.error.starts_with("vault: bad.img: \"SHOW/11\": a sector is missing") && said.error.contains("(refusal 1)"), "{said:?}");
    assert_eq!(std::fs::read_to_string(folder.at("to/11")).unwrap(), BLACKOUT);
    // A ruined body.
    folder.write("bad.img", &scratched(293, 40));
    let said = folder.vault(&["get", "--checked", "bad.img", "-o", "to", "SHOW/9", "SHOW/11"]);
    assert_eq!((said.status, said.error.contains("(refusal 10); `vault check`"), said.out.lines().count()), (67, true, 1), "{said:?}");
    // All of them, and what isn't an image at all.
    assert_eq!(folder.vault(&["get", "show.img", "-o", "to", "x", "y"]).status, 67);
    refuses(&folder, &["get", "none", "-o", "to", "SHOW/9"], 66, "no such file");
    folder.write("random", &noise(1 << 20));
    refuses(&folder, &["get", "random", "-o", "to", "SHOW/9"], 2, "is invalid");
}

/// A file has the name that the disc has, is written once, and isn't the image.
#[test]
fn many_files_have_their_own_names() {
    let folder = with_folder();
    let said = folder.vault(&["get", "--as-original", "show.img", "-o", "to", "show/10.1a", "SHOW/10.1A"]);
    assert_eq!((said.status, said.out.as_str()), (67, "show/10.1a: 57 bytes, to to/10.1A\n"));
    assert!(said.error.contains("\"10.1a\" under \"show\" matched \"10.1A\" in block 7, the first of 2"), "{said:?}");
    assert!(said.error.contains("\"SHOW/10.1A\" and \"show/10.1a\" would both be written to to/10.1A"), "{said:?}");
    assert_eq!(taken(&folder), ["10.1A"]);
    let said = folder.vault(&["get", "--unambiguous", "show.img", "-o", "to", "SHOW/10.1a", "SHOW/9"]);
    assert_eq!((said.status, said.error.contains("is ambiguous, 2 entries match")), (67, true), "{said:?}");
    assert_eq!(taken(&folder), ["10.1A", "9"]);
    std::fs::rename(folder.at("show.img"), folder.at("to/11")).unwrap();
    let said = folder.vault(&["get", "to/11", "-o", "to", "SHOW/11", "SHOW/9"]);
    assert_eq!(
        (said.status, said.error.contains("to/11: this is the image itself: choose another file"), said.out.lines().count()),
        (67, true, 1),
        "{said:?}"
    );
    assert!(std::fs::read(folder.at("to/11")).unwrap() == show());
}

#[test]
fn many_files_need_a_folder() {
    let folder = with_folder();
    refuses(&folder, &["get", "show.img", "-o", "none", "SHOW/9"], 74, "can't write to this folder");
    refuses(&folder, &["get", "show.img", "-o", "show.img", "SHOW/9"], 74, "not a folder");
    // One that can't be written: the others are.
    std::fs::create_dir(folder.at("to/9")).unwrap();
    let said = folder.vault(&["get", "show.img", "-o", "to", "SHOW/9", "SHOW/12", "SHOW/11"]);
    assert_eq!((said.status, said.out.as_str()), (74, "SHOW/11: 16 bytes, to to/11\n"), "{said:?}");
    assert!(said.error.contains("to/9: this is a directory") && said.error.ends_with("2 of 3 files not written\n"), "{said:?}");
    assert_eq!(taken(&folder), ["11", "9"]);
}

/// A disc with a file of 40 MB, `big`, in a folder of its own.
fn with_big() -> (Folder, Vec<u8>) {
    let (folder, bytes, mut disc) = (Folder::new(), noise(40_000_000), TestDisc::new());
    let block = disc.file(&bytes);
    let listing = disc.directory(&[named("big", block, false)]);
    disc.root(listing);
    folder.write("big.img", &disc.0);
    (folder, bytes)
}

#[test]
fn large_files_are_read_whole() {
    let (folder, bytes) = with_big();
    let said = folder.vault(&["cat", "big.img", "big"]);
    assert!(said.status == 0 && said.error.is_empty() && said.bytes == bytes);
    // No bar where standard error is no terminal.
    answers(&folder.vault(&["get", "big.img", "big", "copy"]), "");
    assert!(std::fs::read(folder.at("copy")).unwrap() == bytes);
}

/// `get` of the big file in a shell that has a limit set.
fn limited(folder: &Folder, limit: &str, file: &str) -> Said {
    within(folder, limit, &["get", "big.img", "big", file])
}

/// The command in a shell that has a limit set.
fn within(folder: &Folder, limit: &str, words: &[&str]) -> Said {
    let line = format!("{limit}; exec \"$@\"");
    Said::of(Command::new("sh").args(["-c", &line, "sh", env!("CARGO_BIN_EXE_vault")]).args(words).current_dir(&folder.0).output().unwrap())
}

#[test]
fn a_file_is_written_without_memory_for_it() {
    let (folder, bytes) = with_big();
    // 40 MB for the map and a few more, and not another 40 MB for the file.
    let said = limited(&folder, "ulimit -v 65000", "new");
    assert_eq!((said.status, said.error.as_str()), (0, ""));
    assert!(std::fs::read(folder.at("new")).unwrap() == bytes);
}

#[test]
fn a_copy_that_does_not_fit_is_said() {
    let (folder, _) = with_big();
    let said = within(&folder, "ulimit -v 30000", &["--copy", "ls", "big.img"]);
    let length = std::fs::metadata(folder.at("big.img")).unwrap().len();
    let sentence = format!("vault: big.img: not enough memory to copy {length} bytes: without --copy, a file is mapped instead\n");
    assert_eq!((said.status, said.error, said.out), (66, sentence, String::new()));
    assert_eq!(within(&folder, "ulimit -v 65000", &["--copy", "ls", "big.img"]).out, "big\n");
}

#[test]
fn a_write_that_fails_leaves_nothing() {
    let (folder, _) = with_big();
    folder.write("old", b"as it was");
    let said = limited(&folder, "trap '' XFSZ; ulimit -f 1000", "old");
    assert_eq!((said.status, said.error.contains("old: can't write this file")), (74, true), "{said:?}");
    assert_eq!(folder.names(), ["big.img", "old"]);
    assert_eq!(std::fs::read(folder.at("old")).unwrap(), b"as it was");
}

#[test]
fn a_closed_pipe_ends_quietly() {
    let (folder, _) = with_big();
    let mut child = folder.command(&["cat", "big.img", "big"]).stdout(Stdio::piped()).stderr(Stdio::piped()).spawn().unwrap();
    drop(child.stdout.take());
    let said = Said::of(child.wait_with_output().unwrap());
    assert_eq!((said.status, said.error.as_str()), (0, ""));
}

#[test]
fn a_full_disk_is_said() {
    let folder = with_show();
    for words in [&["cat", "show.img", "SHOW/9"][..], &["label", "show.img"], &["check", "show.img"], &["--help"], &[]] {
        let full = std::fs::OpenOptions::new().write(true).open("/dev/full").unwrap();
        let said = Said::of(folder.command(words).stdout(full).output().unwrap());
        assert_eq!((said.status, said.error.contains("can't write to standard output")), (74, true), "{words:?} {said:?}");
    }
}

#[test]
fn a_terminal_sees_a_bar() {
    let Some(script) = tool("script") else {
        return left_out("the bar on a terminal", "script");
    };
    let (folder, bytes) = with_big();
    let line = format!("{} get big.img big copy", env!("CARGO_BIN_EXE_vault"));
    let said =
        Said::of(Command::new(script).args(["-qec", &line, "/dev/null"]).current_dir(&folder.0).stdin(Stdio::null()).output().unwrap());
    assert_eq!(said.status, 0, "{said:?}");
    assert!(said.out.starts_with("\r\u{1b}[K["), "{said:?}");
    assert!(said.out.contains("]  52%, 20 of 38 MiB, ") && said.out.contains("] 100%, 38 of 38 MiB, 0 s left"), "{said:?}");
    assert!(said.out.ends_with("\r\u{1b}[K"));
    assert!(std::fs::read(folder.at("copy")).unwrap() == bytes);
}

#[test]
fn a_terminal_is_not_tricked_by_names() {
    let mut disc = TestDisc::new();
    // 16 bits to a letter: an escape, a mark that turns text round, one of no width, a line feed, a backslash.
    let tricks: Vec<u8> = "a\u{1b}[2J\u{202e}\u{200b}\n\\".encode_utf16().flat_map(u16::to_be_bytes).collect();
    let listing = disc.directory(&[identifier(&[b"\x10", &tricks[..]].concat(), 7, false), identifier(b"\x08b\x9bc", 3, true)]);
    disc.root(listing);
    // The label, in the primary volume descriptor of sector 32.
    disc.0[32 * 2048 + 25] = 0x1b;
    seal(&mut disc.0[32 * 2048..], VOLUME_BODY);
    let folder = Folder::new();
    folder.write("tricks.img", &disc.0);
    answers(&folder.vault(&["ls", "tricks.img"]), "a\\u{1b}[2J\\u{202e}\\u{200b}\\u{a}\\\\\nb\\u{9b}c/\n");
    answers(&folder.vault(&["label", "tricks.img"]), "\\u{1b}HOW 1\n");
    let said = folder.vault(&["stat", "--raw", "tricks.img", "A\u{1b}[2J\u{202e}\u{200b}\n\\"]);
    assert_eq!((said.status, said.error.lines().count()), (0, 1));
    assert!(said.out.contains("path     A\\u{1b}[2J") && said.out.contains("entry    a\\u{1b}[2J"), "{said:?}");
    assert!(said.error.starts_with("vault: \"A\\u{1b}[2J\\u{202e}\\u{200b}\\u{a}\\\\\" under the root matched \"a\\u{1b}[2J"), "{said:?}");
}
