//! Taking files off a disc to where names are one that differ in case alone, and where not every name is taken; what was taken, summed; and two discs compared.

mod common;

use common::command::{Folder, Said, left_out, tool};
use common::{TestDisc, identifier, named, show};
use std::fs;
use std::os::unix::fs::MetadataExt;
use std::process::Command;
use std::sync::{Mutex, MutexGuard};

/// A disc whose root has a file of each of these names, with its place among them as its bytes.
fn disc_of(names: &[&str]) -> Vec<u8> {
    let mut disc = TestDisc::new();
    let files: Vec<u32> = (0..names.len()).map(|i| disc.file(i.to_string().as_bytes())).collect();
    let wide = |name: &str| -> Vec<u8> { std::iter::once(16).chain(name.encode_utf16().flat_map(u16::to_be_bytes)).collect() };
    let entries: Vec<Vec<u8>> = names.iter().zip(files).map(|(name, block)| identifier(&wide(name), block, false)).collect();
    let root = disc.directory(&entries);
    disc.root(root);
    disc.0
}

fn with_show() -> Folder {
    let folder = Folder::new();
    folder.write("show.img", &show());
    fs::create_dir(folder.at("to")).unwrap();
    folder
}

/// There may be one such device.
static ONE: Mutex<()> = Mutex::new(());

/// A stick of 16 MB, formatted with exFAT, at `to`; taken away when this is dropped.
struct Stick {
    folder: Folder,
    device: String,
    _one: MutexGuard<'static, ()>,
}

fn run(folder: &Folder, name: &str, words: &[&str]) -> Option<String> {
    let said = Said::of(Command::new(tool(name)?).args(words).current_dir(&folder.0).output().ok()?);
    (said.status == 0).then(|| said.out.trim().to_string())
}

impl Stick {
    fn new(test: &str) -> Option<Stick> {
        let (one, folder) = (ONE.lock().unwrap_or_else(|held| held.into_inner()), with_show());
        fs::File::create(folder.at("stick")).unwrap().set_len(16 << 20).unwrap();
        let device = run(&folder, "mkfs.exfat", &["stick"]).and_then(|_| run(&folder, "losetup", &["-f", "--show", "stick"]));
        let Some(device) = device else {
            left_out(test, "mkfs.exfat, or a loop device,");
            return None;
        };
        let before = fs::metadata(folder.at("to")).unwrap().dev();
        let stick = Stick { folder, device, _one: one };
        run(&stick.folder, "mount.exfat-fuse", &[&stick.device, "to"]);
        if fs::metadata(stick.folder.at("to")).is_ok_and(|at| at.dev() != before) {
            return Some(stick);
        }
        left_out(test, "exfat-fuse");
        None
    }
}

impl Drop for Stick {
    fn drop(&mut self) {
        run(&self.folder, "umount", &["to"]);
        run(&self.folder, "losetup", &["-d", &self.device]);
    }
}

#[test]
fn twins_are_both_kept_on_a_stick() {
    let Some(stick) = Stick::new("twins on a stick") else { return };
    let folder = &stick.folder;
    let read = |name: &str| fs::read_to_string(folder.at("to/SHOW").join(name)).unwrap();
    // Again over what is there, it is the same.
    for again in 0..2 {
        let said = folder.vault(&["get", "-r", "show.img", "-o", "to"]);
        assert_eq!((said.status, said.out.lines().count()), (74, 4), "{said:?}");
        assert!(said.out.contains("SHOW/10.1a: 54 bytes, to to/SHOW/10.1a~2\n"), "{said:?}");
        assert!(said.error.contains("\"SHOW/10.1a\" is written to to/SHOW/10.1a~2: its own name is taken there"), "{said:?}");
        assert!(said.error.ends_with("1 of 5 files and folders not under their own names\n"), "{said:?}");
        assert_eq!(fs::read_dir(folder.at("to/SHOW")).unwrap().count(), 4, "{again}");
        assert!(read("10.1A").starts_with("cue 10.1A\n") && read("10.1a~2").starts_with("cue 10.1a\n"));
    }
    // Many files, without -r.
    let said = folder.vault(&["get", "--as-written", "show.img", "-o", "to", "SHOW/10.1a", "SHOW/10.1A"]);
    assert_eq!(
        (said.status, said.out.as_str()),
        (74, "SHOW/10.1a: 54 bytes, to to/10.1a\nSHOW/10.1A: 57 bytes, to to/10.1A~2\n"),
        "{said:?}"
    );
    assert!(fs::read_to_string(folder.at("to/10.1a")).unwrap().starts_with("cue 10.1a\n"));
}

#[test]
fn folders_that_differ_in_case_are_two_on_a_stick() {
    let Some(stick) = Stick::new("folders on a stick") else { return };
    let (folder, mut disc) = (&stick.folder, TestDisc::new());
    let (one, two) = (disc.file(b"one"), disc.file(b"two"));
    let (upper, lower) = (disc.directory(&[named("cue", one, false)]), disc.directory(&[named("cue", two, false)]));
    let root = disc.directory(&[named("ACT", upper, true), named("act", lower, true)]);
    disc.root(root);
    folder.write("a.img", &disc.0);
    let said = folder.vault(&["get", "-r", "a.img", "-o", "to"]);
    assert_eq!((said.status, said.out.as_str()), (74, "ACT/cue: 3 bytes, to to/ACT/cue\nact/cue: 3 bytes, to to/act~2/cue\n"), "{said:?}");
    assert_eq!((fs::read(folder.at("to/ACT/cue")).unwrap(), fs::read(folder.at("to/act~2/cue")).unwrap()), (b"one".into(), b"two".into()));
}

#[test]
fn a_stick_takes_every_name() {
    let Some(stick) = Stick::new("names on a stick") else { return };
    let folder = &stick.folder;
    let names = ["a/b", "dot.", "space ", "per%cent", "new\nline", "q\"uote", "a:b", "back\\slash", "<|>*?", "NUL", ""];
    folder.write("a.img", &disc_of(&names));
    let said = folder.vault(&["get", "-r", "--portable", "a.img", "-o", "to"]);
    assert_eq!((said.status, said.out.lines().count()), (0, names.len()), "{said:?}");
    let written =
        ["a%2Fb", "dot%2E", "space%20", "per%25cent", "new%0Aline", "q%22uote", "a%3Ab", "back%5Cslash", "%3C%7C%3E%2A%3F", "%4EUL"];
    for (i, name) in written.iter().chain(&["unnamed"]).enumerate() {
        assert_eq!(fs::read_to_string(folder.at("to").join(name)).unwrap(), i.to_string(), "{name}");
    }
    // Without the option what a Linux file system takes is left, and what the stick refuses is told of with what to do.
    let said = folder.vault(&["get", "-r", "a.img", "-o", "to"]);
    assert!(said.status == 74 && said.out.contains("a\\u{2f}b: 1 byte, to to/a%2Fb\n"), "{said:?}");
    let refused = said.error.lines().find(|line| line.contains("a:b")).unwrap();
    assert!(refused.ends_with("; try get -r --portable, which writes names that every file system accepts"), "{refused}");
}

/// Where case is told apart, portable names differ by more.
#[test]
fn portable_names_can_be_copied_anywhere() {
    let folder = with_show();
    let said = folder.vault(&["get", "-r", "--portable", "show.img", "-o", "to"]);
    assert!(said.status == 74 && said.out.contains("SHOW/10.1a: 54 bytes, to to/SHOW/10.1a~2\n"), "{said:?}");
    assert!(fs::read_to_string(folder.at("to/SHOW/10.1a~2")).unwrap().starts_with("cue 10.1a\n"));
    for words in [&["get", "--portable", "show.img", "SHOW/9", "x"][..], &["get", "--sums", "s", "show.img", "-o", "to", "SHOW/9"]] {
        let said = folder.vault(words);
        assert!(said.status == 64 && said.error.contains("--portable and --sums work only with get -r"), "{said:?}");
    }
}

/// More files than wait at once, over old ones: each is replaced, and nothing is left behind.
#[test]
fn many_old_files_are_replaced() {
    let (folder, mut disc) = (with_show(), TestDisc::new());
    let cue = disc.file(b"a look");
    let entries: Vec<Vec<u8>> = (0..2300).map(|i| named(&i.to_string(), cue, false)).collect();
    let root = disc.directory(&entries);
    disc.root(root);
    folder.write("a.img", &disc.0);
    for i in (0..2300).step_by(2) {
        folder.write(&format!("to/{i}"), b"old");
    }
    let said = folder.vault(&["get", "-r", "a.img", "-o", "to"]);
    let lines: Vec<String> = (0..2300).map(|i| format!("{i}: 6 bytes, to to/{i}\n")).collect();
    assert!(said.status == 0 && said.out == lines.concat() && said.error.is_empty(), "{said:?}");
    assert_eq!(fs::read_dir(folder.at("to")).unwrap().count(), 2300);
    assert!((0..2300).all(|i| fs::read(folder.at(&format!("to/{i}"))).unwrap() == b"a look"));
}

#[test]
fn sums_are_taken_by_sha256sum() {
    let Some(sha256sum) = tool("sha256sum") else {
        return left_out("sums", "sha256sum");
    };
    let folder = with_show();
    folder.write("sums", b"old");
    assert_eq!(folder.vault(&["get", "-r", "show.img", "-o", "to", "--sums", "sums"]).status, 0);
    let check = || Said::of(Command::new(&sha256sum).args(["-c", "../sums"]).current_dir(folder.at("to")).output().unwrap());
    assert_eq!(check().out, "SHOW/9: OK\nSHOW/10.1A: OK\nSHOW/10.1a: OK\nSHOW/11: OK\n");
    folder.write("to/SHOW/11", b"changed");
    assert_eq!(check().status, 1);
    // No tool: nothing is written.
    fs::remove_dir_all(folder.at("to/SHOW")).unwrap();
    let said = Said::of(folder.command(&["get", "-r", "show.img", "-o", "to", "--sums", "sums"]).env("PATH", "/nowhere").output().unwrap());
    assert!(said.status == 74 && said.error.contains("--sums needs sha256sum") && !folder.at("to/SHOW").exists(), "{said:?}");
    // Not over a file of the disc, nor over the image.
    let said = folder.vault(&["get", "-r", "show.img", "-o", "to", "--sums", "to/SHOW/9"]);
    assert!(said.status == 74 && said.error.contains("a file from the disc was written here"), "{said:?}");
    assert_eq!(folder.vault(&["get", "-r", "show.img", "-o", "to", "--sums", "show.img"]).status, 64);
}

#[test]
fn two_nights_are_compared() {
    let (folder, mut disc) = (with_show(), TestDisc::new());
    let looks: Vec<u32> = [&b"nine"[..], b"ten", b"eleven"].map(|look| disc.file(look)).to_vec();
    let inner = disc.directory(&[named("x", looks[0], false)]);
    let make = |disc: &TestDisc, entries: &[Vec<u8>]| {
        let mut disc = TestDisc(disc.0.clone());
        let root = disc.directory(entries);
        disc.root(root);
        disc.0
    };
    let common = [named("9", looks[0], false), named("kind", looks[0], false), named("10", looks[1], false)];
    folder.write("a.img", &make(&disc, &[&common[..], &[named("act", inner, true)]].concat()));
    let other = [named("9", looks[0], false), named("kind", inner, true), named("10", looks[2], false), named("12", looks[0], false)];
    folder.write("b.img", &make(&disc, &other));
    let said = folder.vault(&["compare", "a.img", "b.img"]);
    let lines = "kind: a file and a directory\n10: bytes differ\nact/: only on a.img\nact/x: only on a.img\nkind/x: only on b.img\n12: only on b.img\n";
    assert_eq!((said.status, said.error.as_str()), (1, ""), "{said:?}");
    let sorted = |text: &str| {
        let mut lines: Vec<String> = text.lines().map(String::from).collect();
        lines.sort();
        lines
    };
    assert_eq!(sorted(&said.out), sorted(lines));
    let said = folder.vault(&["compare", "--json", "a.img", "b.img"]);
    let row = "{\"path\": \"10\", \"kind\": \"file\", \"differs\": \"bytes\", \"image\": null}";
    assert!(said.status == 1 && said.out.contains(row) && said.out.lines().count() == 6, "{said:?}");
    for words in [&["compare", "a.img", "a.img"][..], &["compare", "--copy", "--checked", "show.img", "show.img"]] {
        let said = folder.vault(words);
        assert_eq!((said.status, said.out.as_str(), said.error.as_str()), (0, "", ""), "{said:?}");
    }
    assert_eq!(folder.vault(&["compare", "--json", "a.img", "a.img"]).out, "[]\n");
    let said = folder.vault(&["compare", "a.img", "b.img", "--limit", "7"]);
    assert!(said.status == 68 && said.error.contains("stopped after 7 sectors"), "{said:?}");
    assert_eq!(folder.vault(&["compare", "a.img"]).status, 64);
    assert_eq!(folder.vault(&["compare", "a.img", "none"]).status, 66);
    // Cut short: what is refused by 1 is no difference.
    folder.write("cut.img", &show()[..300 * 2048]);
    folder.write("empty.img", b"");
    assert_eq!(folder.vault(&["compare", "show.img", "cut.img"]).status, 67);
    assert_eq!(folder.vault(&["compare", "show.img", "empty.img"]).status, 67);
}
