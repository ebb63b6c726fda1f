//! Taking files off a disc: what `ls` prints is what the other commands take, files are whole or as they were, and `get -r` stays in its folder.

mod common;

use common::command::{Folder, Said, left_out, tool};
use common::{SECTOR, TestDisc, identifier, named, noise, sealed, short_ad, show};
use std::fs::{self, File};
use std::os::unix::fs::{MetadataExt, PermissionsExt, symlink};
use std::process::{Command, Stdio};

const BLACKOUT: &str = "cue 11\nblackout\n";

fn answers(said: &Said, out: &str) {
    assert_eq!((said.status, said.out.as_str(), said.error.as_str()), (0, out, ""));
}

/// One sentence with `phrase` in it, and nothing on standard output.
fn refuses(said: &Said, status: i32, phrase: &str) {
    assert_eq!((said.status, said.out.as_str(), said.error.lines().count()), (status, "", 1), "{said:?}");
    assert!(said.error.starts_with("vault: ") && said.error.contains(phrase), "{said:?}");
}

fn with_show() -> Folder {
    let folder = Folder::new();
    folder.write("show.img", &show());
    folder
}

/// A name of 16 bits to a letter.
fn wide(name: &str) -> Vec<u8> {
    let units: Vec<u8> = name.encode_utf16().flat_map(u16::to_be_bytes).collect();
    [b"\x10", &units[..]].concat()
}

/// A disc whose root has a file of each of these names, with its place among them as its bytes.
fn disc_of(names: &[&str]) -> TestDisc {
    let mut disc = TestDisc::new();
    let files: Vec<u32> = (0..names.len()).map(|i| disc.file(i.to_string().as_bytes())).collect();
    let entries: Vec<Vec<u8>> = names.iter().zip(files).map(|(name, block)| identifier(&wide(name), block, false)).collect();
    let root = disc.directory(&entries);
    disc.root(root);
    disc
}

/// Everything below a folder, sorted: paths, with a slash behind those of folders.
fn below(folder: &Folder, name: &str) -> Vec<String> {
    let (mut found, mut pending) = (Vec::new(), vec![folder.at(name)]);
    while let Some(at) = pending.pop() {
        for entry in fs::read_dir(&at).unwrap().map(Result::unwrap) {
            let path = entry.path().strip_prefix(folder.at(name)).unwrap().to_string_lossy().into_owned();
            if entry.file_type().unwrap().is_dir() {
                pending.push(entry.path());
                found.push(path + "/");
            } else {
                found.push(path);
            }
        }
    }
    found.sort();
    found
}

const TRICKS: [&str; 8] = ["plain", "a\u{1b}[2J", "new\nline", "back\\slash", "\\u{41}", "\u{202e}txt", "\\", "日本\u{200b}"];

#[test]
fn what_ls_prints_is_taken_back() {
    let folder = Folder::new();
    folder.write("a.img", &disc_of(&TRICKS).0);
    let listed = folder.vault(&["ls", "a.img"]).out;
    assert_eq!(listed.lines().count(), TRICKS.len());
    for (i, line) in listed.lines().enumerate() {
        for words in [&["cat", "a.img", line][..], &["cat", "--as-written", "a.img", line], &["cat", "--drive", "a.img", line]] {
            answers(&folder.vault(words), &i.to_string());
        }
        answers(&folder.vault(&["get", "a.img", line, "file"]), "");
        assert_eq!(fs::read_to_string(folder.at("file")).unwrap(), i.to_string());
        // As it is recorded, and by its place.
        answers(&folder.vault(&["cat", "--raw", "a.img", TRICKS[i]]), &i.to_string());
    }
    assert_eq!(folder.vault(&["ls", "-0", "a.img"]).out, TRICKS.map(|name| format!("{name}\0")).concat());
    assert_eq!(folder.vault(&["ls", "-R", "-0", "a.img"]).out, TRICKS.map(|name| format!("{name}\0")).concat());
    refuses(&folder.vault(&["cat", "a.img", "back\\slash"]), 64, "--raw takes PATH literally");
    refuses(&folder.vault(&["cat", "a.img", "\\n"]), 64, "starts \\\\, \\u{..} or \\x..");
}

#[test]
fn what_no_path_leads_to_is_had_by_its_place() {
    let folder = Folder::new();
    folder.write("a.img", &disc_of(&["with/slash", "twin", "twin", ""]).0);
    let listed = folder.vault(&["ls", "-i", "a.img"]).out;
    let lines: Vec<(&str, &str)> = listed.lines().map(|line| line.split_once(' ').unwrap()).collect();
    assert_eq!(lines.iter().map(|(_, name)| *name).collect::<Vec<_>>(), ["with\\u{2f}slash", "twin", "twin", ""]);
    for (i, (icb, _)) in lines.iter().enumerate() {
        answers(&folder.vault(&["cat", "a.img", "--icb", icb]), &i.to_string());
        answers(&folder.vault(&["cat", "--drive", "a.img", "--icb", icb.split(':').next().unwrap()]), &i.to_string());
        answers(&folder.vault(&["get", "--icb", icb, "a.img", "file"]), "");
        assert_eq!(fs::read_to_string(folder.at("file")).unwrap(), i.to_string());
        assert!(folder.vault(&["stat", "a.img", "--icb", icb]).out.contains("kind     file\n"));
    }
    refuses(&folder.vault(&["cat", "a.img", "with\\u{2f}slash"]), 64, "use --icb with its place, from ls -i");
    assert_eq!(folder.vault(&["cat", "a.img", "with/slash"]).status, 3);
}

#[test]
fn a_place_may_be_a_directory_s() {
    let folder = with_show();
    answers(&folder.vault(&["ls", "-i", "show.img"]), "4:5 SHOW/\n");
    for drive in [&[][..], &["--drive"]] {
        let said = |words: &[&str]| folder.vault(&[words, drive].concat());
        answers(&said(&["ls", "show.img", "--icb", "4:5"]), "9\n10.1A\n10.1a\n11\n");
        answers(
            &said(&["ls", "-R", "-i", "show.img", "--icb", "3"]),
            "4:5 SHOW/\n5:5 SHOW/9\n7:5 SHOW/10.1A\n9:5 SHOW/10.1a\n11:5 SHOW/11\n",
        );
        assert!(said(&["tree", "show.img", "--icb", "4"]).out.starts_with("--icb 4/\n├── 9\n"));
        refuses(&said(&["cat", "show.img", "--icb", "4"]), 64, "\"--icb 4\" is a directory");
        // The cue's bytes are no entry, and the image has no such block.
        assert_eq!(said(&["cat", "show.img", "--icb", "12"]).status, 2);
        refuses(&said(&["cat", "show.img", "--icb", "4294967295"]), 1, "\"--icb 4294967295\"");
    }
    // Through the maps a reference is looked at.
    assert_eq!(folder.vault(&["cat", "--wait", "0", "show.img", "--icb", "11"]).out, BLACKOUT);
}

#[test]
fn an_old_file_keeps_its_mode() {
    let folder = with_show();
    for mode in [0o600, 0o640, 0o755, 0o444] {
        folder.write("cue", b"old");
        fs::set_permissions(folder.at("cue"), fs::Permissions::from_mode(mode)).unwrap();
        answers(&folder.vault(&["get", "show.img", "SHOW/11", "cue"]), "");
        assert_eq!(
            (fs::metadata(folder.at("cue")).unwrap().mode() & 0o7777, fs::read_to_string(folder.at("cue")).unwrap()),
            (mode, BLACKOUT.to_string())
        );
        fs::remove_file(folder.at("cue")).unwrap();
    }
    // A new one has that of any new file.
    folder.write("other", b"");
    answers(&folder.vault(&["get", "show.img", "SHOW/11", "cue"]), "");
    assert_eq!(fs::metadata(folder.at("cue")).unwrap().mode(), fs::metadata(folder.at("other")).unwrap().mode());
}

#[test]
fn a_link_is_followed_or_refused() {
    let folder = with_show();
    folder.write("old", b"old");
    symlink("old", folder.at("link")).unwrap();
    symlink("nothing", folder.at("lost")).unwrap();
    answers(&folder.vault(&["get", "show.img", "SHOW/11", "link"]), "");
    assert_eq!(fs::read_to_string(folder.at("old")).unwrap(), BLACKOUT);
    assert!(folder.at("link").is_symlink());
    refuses(&folder.vault(&["get", "show.img", "SHOW/11", "lost"]), 74, "this is a broken link");
    assert_eq!(folder.names(), ["link", "lost", "old", "show.img"]);
}

#[test]
fn standard_output_is_written_and_not_replaced() {
    let folder = with_show();
    for name in ["/dev/stdout", "/dev/fd/1", "/proc/self/fd/1"] {
        answers(&folder.vault(&["get", "show.img", "SHOW/11", name]), BLACKOUT);
        answers(&folder.vault(&["get", "--drive", "show.img", "SHOW/11", name]), BLACKOUT);
        folder.write("out", b"");
        let before = fs::metadata(folder.at("out")).unwrap().ino();
        let out = File::options().append(true).open(folder.at("out")).unwrap();
        assert!(folder.command(&["get", "show.img", "SHOW/11", name]).stdout(out).status().unwrap().success());
        assert_eq!(fs::read_to_string(folder.at("out")).unwrap(), BLACKOUT);
        assert_eq!(fs::metadata(folder.at("out")).unwrap().ino(), before);
    }
    // Another file that is open isn't replaced either.
    let error = File::create(folder.at("error")).unwrap();
    let before = fs::metadata(folder.at("error")).unwrap().ino();
    let status = folder.command(&["get", "show.img", "SHOW/11", "/dev/stderr"]).stderr(error).status().unwrap();
    assert_eq!((status.code(), fs::metadata(folder.at("error")).unwrap().ino()), (Some(74), before));
    assert!(fs::read_to_string(folder.at("error")).unwrap().contains("not a regular file"));
    assert_eq!(folder.vault(&["make", "/dev/stdout", "show.img"]).status, 74);
}

/// A file that grows too long ends the command by a signal, and what was written goes with it.
#[test]
fn a_signal_leaves_nothing() {
    let (folder, mut disc) = (Folder::new(), TestDisc::new());
    let block = disc.file(&noise(4_000_000));
    let root = disc.directory(&[named("big", block, false)]);
    disc.root(root);
    folder.write("big.img", &disc.0);
    folder.write("old", b"as it was");
    for words in [&["get", "big.img", "big", "old"][..], &["get", "--drive", "big.img", "big", "old"], &["get", "-r", "big.img", "-o", "."]]
    {
        let line = "ulimit -f 1000; exec \"$@\"";
        let mut command = Command::new("sh");
        command.args(["-c", line, "sh", env!("CARGO_BIN_EXE_vault")]).args(words).current_dir(&folder.0).stdin(Stdio::null());
        // Ended by a signal, it has no status.
        assert_eq!(Said::of(command.output().unwrap()).status, -1, "{words:?}");
        assert_eq!(folder.names(), ["big.img", "old"], "{words:?}");
        assert_eq!(fs::read(folder.at("old")).unwrap(), b"as it was");
    }
}

fn with_folder() -> Folder {
    let folder = with_show();
    fs::create_dir(folder.at("to")).unwrap();
    folder
}

#[test]
fn all_of_a_disc_is_taken() {
    for drive in [&[][..], &["--drive"]] {
        let folder = with_folder();
        let said = folder.vault(&[&["get", "-r", "show.img", "-o", "to"], drive].concat());
        let out = "SHOW/9: 27 bytes, to to/SHOW/9\nSHOW/10.1A: 57 bytes, to to/SHOW/10.1A\nSHOW/10.1a: 54 bytes, to to/SHOW/10.1a\n\
                   SHOW/11: 16 bytes, to to/SHOW/11\n";
        answers(&said, out);
        assert_eq!(below(&folder, "to"), ["SHOW/", "SHOW/10.1A", "SHOW/10.1a", "SHOW/11", "SHOW/9"]);
        for cue in ["9", "10.1A", "10.1a", "11"] {
            let path = format!("SHOW/{cue}");
            assert_eq!(
                fs::read(folder.at(&format!("to/{path}"))).unwrap(),
                folder.vault(&["cat", "--as-written", "show.img", &path]).bytes
            );
        }
        // Again, over what is there.
        answers(
            &folder.vault(&[&["get", "-r", "show.img", "-o", "to", "/SHOW/"], drive].concat()),
            &out.replace("SHOW/9:", "/SHOW/9:").replace("\nSHOW", "\n/SHOW"),
        );
        // One file, and a folder that isn't there.
        let said = folder.vault(&[&["get", "-r", "show.img", "-o", "to", "SHOW/11", "NONE"], drive].concat());
        assert_eq!((said.status, said.out.as_str()), (67, "SHOW/11: 16 bytes, to to/11\n"));
        assert!(
            said.error.contains("there is nothing named \"NONE\"") && said.error.ends_with("1 of 2 files and folders not written\n"),
            "{said:?}"
        );
    }
}

#[test]
fn no_name_leads_out_of_the_folder() {
    let folder = with_folder();
    let names = ["..", ".", "", "../out", "/out", "a/b", "twin", "twin", "new\nline", "\u{1b}[2J", "a\\b"];
    let mut disc = disc_of(&names);
    let inner = disc.directory(&[named("..", 5, false), named("x", 5, false)]);
    let files: Vec<u32> = (0..names.len()).map(|i| disc.file(i.to_string().as_bytes())).collect();
    let mut entries: Vec<Vec<u8>> = names.iter().zip(files).map(|(name, block)| identifier(&wide(name), block, false)).collect();
    entries.push(named("..", inner, true));
    let root = disc.directory(&entries);
    disc.root(root);
    folder.write("a.img", &disc.0);
    let said = folder.vault(&["get", "-r", "a.img", "-o", "to"]);
    assert_eq!(said.status, 0, "{said:?}");
    let dots = ".%2E";
    let safe = [dots, "%2E", "unnamed", "..%2Fout", "%2Fout", "a%2Fb", "twin", "twin~2", "new%0Aline", "%1B[2J", "a\\b"];
    // On the left as ls writes them, and on the right too.
    assert!(said.out.contains("a\\u{2f}b: 1 byte, to to/a%2Fb\n") && said.out.contains("a\\\\b: 2 bytes, to to/a\\\\b\n"), "{said:?}");
    let mut safe = safe.map(String::from).to_vec();
    for (i, name) in safe.iter().enumerate() {
        assert_eq!(fs::read_to_string(folder.at("to").join(name)).unwrap(), i.to_string());
    }
    // A folder of the name of a file has a number.
    safe.extend([format!("{dots}~2/"), format!("{dots}~2/{dots}"), format!("{dots}~2/x")]);
    safe.sort();
    assert_eq!(below(&folder, "to"), safe);
    assert_eq!(folder.names(), ["a.img", "show.img", "to"]);
}

#[test]
fn no_link_leads_out_of_the_folder() {
    let folder = with_folder();
    fs::create_dir(folder.at("elsewhere")).unwrap();
    folder.write("file", b"as it was");
    symlink("../elsewhere", folder.at("to/SHOW")).unwrap();
    let said = folder.vault(&["get", "-r", "show.img", "-o", "to"]);
    assert_eq!(said.status, 74, "{said:?}");
    assert!(said.error.contains("to/SHOW: this exists and is not a folder"), "{said:?}");
    assert!(below(&folder, "elsewhere").is_empty(), "{:?}", below(&folder, "elsewhere"));
    fs::remove_file(folder.at("to/SHOW")).unwrap();
    fs::create_dir(folder.at("to/SHOW")).unwrap();
    symlink("../../file", folder.at("to/SHOW/9")).unwrap();
    let said = folder.vault(&["get", "-r", "show.img", "-o", "to"]);
    assert_eq!((said.status, said.out.lines().count()), (74, 3), "{said:?}");
    assert!(said.error.contains("to/SHOW/9: this is a link, and links are not followed here"), "{said:?}");
    assert_eq!(fs::read(folder.at("file")).unwrap(), b"as it was");
}

/// Directories that hold each other, and themselves: each is taken once.
#[test]
fn directories_that_hold_each_other_end() {
    let (folder, mut disc) = (with_folder(), TestDisc::new());
    let cue = disc.file(b"a look");
    // The root is block 3, whatever it is made of.
    let other = disc.directory(&[named("up", 3, true), named("cue", cue, false)]);
    // By another reference, which isn't looked at without maps.
    let mut again = named("again", 3, true);
    again[28] = 77;
    let again = sealed(again);
    let root = disc.directory(&[named("self", 3, true), again, named("a", other, true), named("b", other, true), named("cue", cue, false)]);
    disc.root(root);
    folder.write("a.img", &disc.0);
    for drive in [&[][..], &["--drive"]] {
        let said = folder.vault(&[&["get", "-r", "a.img", "-o", "to"], drive].concat());
        assert_eq!((said.status, below(&folder, "to")), (67, ["a/", "a/cue", "cue"].map(String::from).to_vec()), "{said:?}");
        for path in ["self", "again", "b", "a/up"] {
            assert!(said.error.contains(&format!("\"{path}\" is a directory that an earlier entry also names")), "{said:?}");
        }
    }
}

#[test]
fn what_cannot_be_had_keeps_nothing_back() {
    let (folder, mut disc) = (with_folder(), TestDisc::new());
    let cue = disc.file(b"a look");
    let lost = disc.entry(0, &common::short_ad(10, 1 << 20), 10);
    let root = disc.directory(&[named("gone", 900_000, true), named("lost", lost, false), named("cue", cue, false)]);
    disc.root(root);
    folder.write("a.img", &disc.0);
    let said = folder.vault(&["get", "-r", "a.img", "-o", "to"]);
    assert_eq!((said.status, said.out.as_str()), (67, "cue: 6 bytes, to to/cue\n"), "{said:?}");
    assert!(said.error.contains("\"gone\": a sector") && said.error.contains("\"lost\": a sector"), "{said:?}");
    assert_eq!(below(&folder, "to"), ["cue", "gone/"]);
    // Too many: nothing is written.
    let many = Folder::new();
    many.write("show.img", &show());
    fs::create_dir(many.at("to")).unwrap();
    // Opening takes 6 sectors, the directories 2, the files 8, and that SHOW is named counts as one.
    for limit in ["1", "7", "8", "16"] {
        for drive in [&[][..], &["--drive"]] {
            let said = many.vault(&[&["get", "-r", "show.img", "-o", "to", "--limit", limit], drive].concat());
            refuses(&said, 68, &format!("stopped after {limit} sectors, the limit; nothing was written. The disc may be malicious"));
            assert!(below(&many, "to").is_empty(), "{said:?}");
        }
    }
    for limit in [&["--limit", "17"][..], &["--no-limit"], &["--limit", "17", "--drive"]] {
        assert_eq!(many.vault(&[&["get", "-r", "show.img", "-o", "to"], limit].concat()).status, 0);
    }
    refuses(&many.vault(&["get", "-r", "show.img", "-o", "none"]), 74, "can't write to this folder");
}

/// Long paths to many entries: more than is kept in memory.
#[test]
fn paths_of_many_bytes_are_refused_before_anything_is_written() {
    let (folder, mut disc) = (with_folder(), TestDisc::new());
    let cue = disc.file(b"a look");
    let entries: Vec<Vec<u8>> = (0..40_000).map(|i| named(&format!("{i}"), cue, false)).collect();
    let mut below = disc.directory(&entries);
    for _ in 0..15 {
        below = disc.directory(&[named(&"d".repeat(230), below, true)]);
    }
    disc.root(below);
    folder.write("a.img", &disc.0);
    refuses(&folder.vault(&["get", "-r", "a.img", "-o", "to"]), 68, "copy one folder at a time; nothing was written");
    assert_eq!(fs::read_dir(folder.at("to")).unwrap().count(), 0);
}

/// Two names that are one file here: on a stick that doesn't tell case apart, or through a link.
#[test]
fn one_file_is_not_written_twice() {
    let folder = with_folder();
    symlink("10.1A", folder.at("to/10.1a")).unwrap();
    folder.write("to/10.1A", b"");
    let said = folder.vault(&["get", "--as-written", "show.img", "-o", "to", "SHOW/10.1A", "SHOW/10.1a"]);
    assert_eq!((said.status, said.out.as_str()), (67, "SHOW/10.1A: 57 bytes, to to/10.1A\n"), "{said:?}");
    assert!(said.error.contains("to/10.1a: this is the same file as one already written"), "{said:?}");
    assert!(fs::read_to_string(folder.at("to/10.1A")).unwrap().starts_with("cue 10.1A\n"));
}

#[test]
fn a_terminal_sees_how_much_is_taken() {
    let Some(script) = tool("script") else {
        return left_out("progress on a terminal", "script");
    };
    let (folder, mut disc) = (Folder::new(), TestDisc::new());
    let files: Vec<u32> = (0..4).map(|_| disc.file(&noise(10_000_000))).collect();
    let entries: Vec<Vec<u8>> = files.iter().enumerate().map(|(i, block)| named(&i.to_string(), *block, false)).collect();
    let root = disc.directory(&entries);
    disc.root(root);
    folder.write("big.img", &disc.0);
    fs::create_dir(folder.at("to")).unwrap();
    for drive in ["", " --drive"] {
        let line = format!("{} get -r big.img -o to{drive}", env!("CARGO_BIN_EXE_vault"));
        let said = Command::new(&script).args(["-qec", &line, "/dev/null"]).current_dir(&folder.0).stdin(Stdio::null()).output();
        let said = Said::of(said.unwrap());
        assert_eq!(said.status, 0, "{said:?}");
        assert!(
            said.out.contains("]  50%, 19 of 38 MiB, ") && said.out.contains(" s left") && said.out.contains("] 100%, 38 of 38 MiB"),
            "{said:?}"
        );
    }
    assert!(fs::read(folder.at("to/3")).unwrap() == noise(10_000_000));
}

#[test]
fn the_show_says_what_it_is() {
    let folder = with_show();
    let info = "label    SHOW 1\nvolume   LOGICAL\nrevision not recorded\nimage    304 sectors of 2048 bytes; recognition sequence: no\n\
                start    sector 288, partition 5, 32 blocks\nmaps     none\nfound    sector 32, primary volume, number 1, prevails\n\
                found    sector 33, partition, number 2, prevails\nfound    sector 34, logical volume, number 3, prevails\nstate    not recorded\n";
    answers(&folder.vault(&["info", "show.img"]), info);
    // Where it can't be opened, what there is, and why.
    let mut image = show();
    image[290 * SECTOR + 4] ^= 1;
    folder.write("bad.img", &image);
    let said = folder.vault(&["info", "bad.img"]);
    assert!(said.status == 2 && said.out.starts_with("label    the volume can't be opened\nvolume   LOGICAL\n"), "{said:?}");
    assert_eq!(said.error.lines().count(), 1);
}

/// The show, in which the body of a cue's entry is wrong.
fn ruined() -> Vec<u8> {
    let mut image = show();
    image[293 * SECTOR + 40] ^= 1;
    image
}

#[test]
fn documents_are_json() {
    let folder = with_show();
    let icb = |block| format!("{{\"block\": {block}, \"partition\": 5, \"length\": 2048, \"type\": 0}}");
    answers(
        &folder.vault(&["ls", "--json", "show.img"]),
        &format!("[{{\"name\": \"SHOW\", \"kind\": \"directory\", \"icb\": {}}}]\n", icb(4)),
    );
    let said = folder.vault(&["tree", "--json", "show.img"]);
    assert!(
        said.status == 0
            && said
                .out
                .contains(&format!("{{\"level\": 2, \"path\": \"SHOW/9\", \"name\": \"9\", \"kind\": \"file\", \"icb\": {}}}", icb(5))),
        "{said:?}"
    );
    assert_eq!(folder.vault(&["ls", "-R", "--json", "show.img"]).out, said.out);
    let said = folder.vault(&["stat", "--json", "show.img", "SHOW/11"]);
    assert!(
        said.out.contains("\"extents\": [{\"length\": 16, \"type\": 0, \"block\": 12, \"partition\": null, \"sector\": 300}]"),
        "{said:?}"
    );
    let check =
        "{\"descriptors\": 19, \"misplaced\": 0, \"ruined\": 0, \"unread\": 0, \"stopped\": null, \"refused\": null, \"findings\": []}\n";
    answers(&folder.vault(&["check", "--json", "show.img"]), check);
    folder.write("ruined.img", &ruined());
    let said = folder.vault(&["check", "--json", "ruined.img"]);
    assert!(
        said.status == 65
            && said.out.contains(
                "\"findings\": [{\"kind\": \"ruined\", \"of\": \"/SHOW/9\", \"descriptor\": \"file entry\", \"id\": 261, \"sector\": 293, \"block\": 5, \"crc\": "
            ),
        "{said:?}"
    );
}

#[test]
fn documents_are_read_by_another_program() {
    let Some(python) = tool("python3") else {
        return left_out("documents read by another program", "python3");
    };
    let folder = with_show();
    folder.write("tricks.img", &disc_of(&["q\"uote", "back\\slash", "new\nline", "日\u{202e}"]).0);
    folder.write("ruined.img", &ruined());
    for words in [
        &["ls", "tricks.img"][..],
        &["ls", "-R", "show.img"],
        &["tree", "show.img", "--levels", "1"],
        &["tree", "show.img", "--limit", "9"],
        &["tree", "show.img", "--limit", "2"],
        &["check", "show.img", "--limit", "7"],
        &["survey", "show.img", "--limit", "7"],
        &["tree", "show.img", "SHOW/9"],
        &["stat", "show.img"],
        &["stat", "show.img", "SHOW"],
        &["stat", "show.img", "--drive"],
        &["stat", "show.img", "SHOW/9", "--drive"],
        &["info", "show.img"],
        &["check", "ruined.img"],
        &["ls", "-l", "tricks.img"],
        &["ls", "-l", "-R", "show.img"],
    ] {
        let document = folder.vault(&[words, &["--json"]].concat()).bytes;
        folder.write("document", &document);
        let mut read = Command::new(&python);
        read.args(["-c", "import json; json.load(open('document', encoding='utf-8'))"]).current_dir(&folder.0);
        assert!(read.status().unwrap().success(), "{words:?} {}", String::from_utf8_lossy(&document));
    }
    let names = "import json; entries = json.load(open('document', encoding='utf-8')); \
                 print([entry['name'] for entry in entries] == ['q\"uote', 'back\\\\slash', 'new\\nline', '日\\u202e'])";
    folder.write("document", &folder.vault(&["ls", "--json", "tricks.img"]).bytes);
    let said = Command::new(&python).args(["-c", names]).current_dir(&folder.0).output().unwrap();
    assert_eq!(String::from_utf8_lossy(&said.stdout), "True\n");
}

#[test]
fn each_command_has_its_help() {
    let folder = Folder::new();
    for command in ["label", "info", "ls", "tree", "cat", "get", "stat", "probe", "check", "compare", "make", "sample"] {
        let said = folder.vault(&[command, "--help"]);
        assert!(
            said.status == 0 && said.out.starts_with(&format!("vault {command} ")) && said.out != folder.vault(&["--help"]).out,
            "{said:?}"
        );
    }
    refuses(&folder.vault(&["lable", "--help"]), 64, "unknown command lable");
    let said = folder.vault(&["--version"]);
    let first = format!("vault {} (include/vault.h {})", env!("CARGO_PKG_VERSION"), strandlodge_sys::vault::VERSION);
    let lines: Vec<&str> = said.out.lines().collect();
    assert!(said.status == 0 && lines.len() == 2 && lines[0] == first && lines[1].contains("proofs were "), "{said:?}");
}

/// What was planted in the folder beforehand: links to files and folders, a pipe, a folder where a file goes, a file where a folder goes.
#[test]
fn what_was_planted_is_neither_followed_nor_written() {
    let folder = with_folder();
    folder.write("outside", b"as it was");
    fs::create_dir_all(folder.at("to/SHOW/9")).unwrap();
    symlink("../../outside", folder.at("to/SHOW/10.1A")).unwrap();
    symlink("nothing", folder.at("to/SHOW/10.1a")).unwrap();
    assert!(Command::new("mkfifo").arg(folder.at("to/SHOW/11")).status().unwrap().success());
    for drive in [&[][..], &["--drive"]] {
        let said = folder.vault(&[&["get", "-r", "show.img", "-o", "to"], drive].concat());
        assert_eq!((said.status, said.out.as_str()), (74, ""), "{said:?}");
        for (name, why) in [("9", "not a regular file"), ("10.1A", "not followed"), ("10.1a", "not followed"), ("11", "not a regular file")]
        {
            assert!(said.error.lines().any(|line| line.contains(&format!("to/SHOW/{name}: ")) && line.contains(why)), "{name} {said:?}");
        }
        assert!(said.error.ends_with("4 of 5 files and folders not written\n"), "{said:?}");
    }
    assert_eq!(below(&folder, "to"), ["SHOW/", "SHOW/10.1A", "SHOW/10.1a", "SHOW/11", "SHOW/9/"]);
    assert_eq!(fs::read(folder.at("outside")).unwrap(), b"as it was");
    // A file where the folder goes; and TO itself may be a link: it is what was typed.
    fs::remove_dir_all(folder.at("to/SHOW")).unwrap();
    folder.write("to/SHOW", b"a file");
    symlink("to", folder.at("link")).unwrap();
    let said = folder.vault(&["get", "-r", "show.img", "-o", "link"]);
    assert!(said.status == 74 && said.error.contains("link/SHOW: this exists and is not a folder"), "{said:?}");
    fs::remove_file(folder.at("to/SHOW")).unwrap();
    assert_eq!(folder.vault(&["get", "-r", "show.img", "-o", "link"]).status, 0);
    assert_eq!(below(&folder, "to"), ["SHOW/", "SHOW/10.1A", "SHOW/10.1a", "SHOW/11", "SHOW/9"]);
    assert_eq!(folder.names(), ["link", "outside", "show.img", "to"]);
}

/// Files that are there are replaced, with their mode; and another name of one keeps its bytes.
#[test]
fn a_file_in_the_folder_is_replaced_as_get_does() {
    let folder = with_folder();
    fs::create_dir(folder.at("to/SHOW")).unwrap();
    folder.write("to/SHOW/11", b"old");
    fs::hard_link(folder.at("to/SHOW/11"), folder.at("other")).unwrap();
    fs::set_permissions(folder.at("to/SHOW/11"), fs::Permissions::from_mode(0o4751)).unwrap();
    assert_eq!(folder.vault(&["get", "-r", "show.img", "-o", "to"]).status, 0);
    // Who may read it stays, and what it may do as its owner doesn't.
    assert_eq!(fs::metadata(folder.at("to/SHOW/11")).unwrap().mode() & 0o7777, 0o751);
    assert_eq!((fs::read(folder.at("to/SHOW/11")).unwrap(), fs::read(folder.at("other")).unwrap()), (BLACKOUT.into(), b"old".to_vec()));
}

/// Names that differ on the disc, and are one when they are made safe or cut.
#[test]
fn names_that_become_one_are_told_apart() {
    let long = ["x".repeat(126), "x".repeat(127)];
    // In a name of 8 bits a letter these have two bytes each.
    let wide = ["é".repeat(125), "é".repeat(126)];
    let names = ["a/b", "a%2Fb", "a%2Fb~2", "..", ".%2E", "", "unnamed", &wide[0], &wide[1], &long[0], &long[1]];
    let recorded = |name: &str| -> Vec<u8> { std::iter::once(8).chain(name.chars().map(|c| c as u8)).collect() };
    let (folder, mut disc) = (with_folder(), TestDisc::new());
    let files: Vec<u32> = (0..names.len()).map(|i| disc.file(i.to_string().as_bytes())).collect();
    let entries: Vec<Vec<u8>> = names.iter().zip(files).map(|(name, block)| identifier(&recorded(name), block, false)).collect();
    let root = disc.directory(&entries);
    disc.root(root);
    folder.write("a.img", &disc.0);
    let said = folder.vault(&["get", "-r", "a.img", "-o", "to"]);
    assert_eq!((said.status, said.out.lines().count()), (0, names.len()), "{said:?}");
    let cut = "é".repeat(120);
    // A name that is made up stands back behind a real one.
    let mut safe = vec!["a%2Fb", "a%252Fb", "a%252Fb~2", ".%2E", ".%252E", "unnamed~2", "unnamed"];
    let second = format!("{cut}~2");
    safe.extend([&cut, &second, &long[0], &long[1]].map(String::as_str));
    for (i, name) in safe.iter().enumerate() {
        assert_eq!(fs::read_to_string(folder.at("to").join(name)).unwrap(), i.to_string(), "{name}");
    }
    safe.sort();
    assert_eq!(below(&folder, "to"), safe);
}

/// A disc with names of every byte and of every 16-bit unit that is hard to write, and how many there are: in a folder of such a name itself, with a label
/// that is one, and with entries that have wrong bodies, so that their paths are told of.
fn hostile() -> (Vec<u8>, usize) {
    let mut recorded: Vec<Vec<u8>> = (0..=255).map(|byte| vec![8, b'a', byte, b'b']).collect();
    let units = [0, 0x22, 0x5c, 0x7f, 0x85, 0x2028, 0x202e, 0xd7ff, 0xd800, 0xdbff, 0xdc00, 0xdfff, 0xe000, 0xfeff, 0xfffe, 0xffff];
    recorded.extend(units.map(|unit: u16| [&[16, 0, b'a'][..], &unit.to_be_bytes(), &[0, b'b']].concat()));
    recorded.extend([vec![], vec![8], vec![16], vec![254, 1], vec![255, 1]]);
    let mut disc = TestDisc::new();
    let files: Vec<u32> = recorded.iter().map(|name| disc.file(name)).collect();
    let entry = |(name, block): (&Vec<u8>, &u32)| identifier(name, *block, false);
    let inner = disc.directory(&recorded.iter().zip(&files).map(entry).collect::<Vec<_>>());
    let root = disc.directory(&[identifier(&[8, 27, b'"', b'\\', 10], inner, true), named("plain", files[0], false)]);
    disc.root(root);
    disc.0[32 * SECTOR + 24..][..8].copy_from_slice(&[8, b'"', 27, b'\\', 10, 127, 200, b'x']);
    disc.0[32 * SECTOR + 55] = 8;
    for block in files {
        disc.0[(288 + block as usize) * SECTOR + 100] ^= 1;
    }
    (disc.0, recorded.len())
}

#[test]
fn documents_are_json_whatever_the_names_are() {
    let Some(python) = tool("python3") else {
        return left_out("documents read by another program", "python3");
    };
    let (folder, (image, names)) = (Folder::new(), hostile());
    folder.write("a.img", &image);
    let listed = folder.vault(&["ls", "--json", "a.img", "\\u{1b}\"\\\\\\u{a}"]);
    assert_eq!((listed.status, listed.out.lines().count()), (0, names), "{listed:?}");
    for words in [
        &["ls", "a.img"][..],
        &["ls", "a.img", "\\u{1b}\"\\\\\\u{a}"],
        &["ls", "-R", "a.img"],
        &["tree", "a.img"],
        &["stat", "a.img"],
        &["stat", "a.img", "\\u{1b}\"\\\\\\u{a}"],
        &["stat", "a.img", "\\u{1b}\"\\\\\\u{a}/a\\u{7f}b"],
        &["info", "a.img"],
        &["check", "a.img"],
    ] {
        let said = folder.vault(&[words, &["--json"]].concat());
        folder.write("document", &said.bytes);
        let mut read = Command::new(&python);
        read.args(["-m", "json.tool", "document"]).current_dir(&folder.0).env("PYTHONUTF8", "1");
        let read = Said::of(read.output().unwrap());
        assert!(
            read.status == 0 && read.out.len() > 20 && said.status == i32::from(words[0] == "check") * 65,
            "{words:?} {read:?} {said:?}"
        );
        assert!(said.bytes.iter().all(|byte| *byte >= b' ' && *byte != 127 || *byte == b'\n'), "{words:?}");
    }
}

/// Sizes by an entry, by a read, and in extents: of a file whose extents end early, of one that can't be read, and of one that is embedded.
#[test]
fn files_have_their_sizes() {
    let (folder, mut disc) = (Folder::new(), TestDisc::new());
    let bytes = disc.lay(&[7; 3000]);
    let short = disc.entry(0, &[short_ad(2048, bytes), short_ad(100, bytes + 1)].concat(), 5000);
    let gone = disc.entry(0, &short_ad(2048, 1_000_000), 2048);
    let embedded = disc.entry(3, b"cue", 3);
    let root = disc.directory(&[named("short", short, false), named("gone", gone, false), named("embedded", embedded, false)]);
    disc.root(root);
    folder.write("a.img", &disc.0);
    let lines =
        "        5000         2148      2 short\n        2048    refused:1      1 gone\n           3            3      0 embedded\n";
    answers(&folder.vault(&["ls", "-l", "a.img"]), lines);
    answers(&folder.vault(&["ls", "-l", "-R", "a.img"]), lines);
    answers(&folder.vault(&["ls", "-l", "a.img", "gone"]), "        2048    refused:1      1 gone\n");
    answers(&folder.vault(&["ls", "-l", "--drive", "a.img", "short"]), "        5000            -      - short\n");
    let sizes = "\"information_length\": 5000, \"bytes\": 2148, \"answer\": 0, \"extent_count\": 2";
    let refused = "\"information_length\": 2048, \"bytes\": null, \"answer\": 1, \"extent_count\": 1";
    for words in [&["ls", "-l"][..], &["ls", "-R", "-l"]] {
        let said = folder.vault(&[words, &["--json", "a.img"]].concat());
        assert!(said.status == 0 && said.out.contains(sizes) && said.out.contains(refused), "{said:?}");
    }
    assert!(!folder.vault(&["ls", "--json", "a.img"]).out.contains("information_length"));
    assert!(folder.vault(&["stat", "--json", "a.img", "short"]).out.contains(sizes));
    let said = folder.vault(&["stat", "a.img", "short"]);
    assert!(said.out.contains("\nlength   5000 bytes, as its entry says\nread     2148 bytes\nstorage  extents: 2\n"), "{said:?}");
    let said = folder.vault(&["stat", "a.img", "gone"]);
    assert!(said.status == 0 && said.out.contains("\nread     none: a sector is missing"), "{said:?}");
}
