//! Vaults that are written: by the library and by `vault make`, read back by both, and by readers that nobody here wrote. Each of those is left out,
//! with a line that says so, where it isn't installed. The original and libudfread read such vaults in compare (docs/COMPARING.md).

mod common;

use common::command::{Folder, left_out, tool};
use common::noise;
use std::fs::{read, write as put};
use std::os::unix::ffi::OsStrExt;
use std::path::PathBuf;
use std::process::{Command, Output, Stdio};
use strandlodge::{Counted, How, Matching, Refusal, SECTOR_SIZE, probe_vrs, read_volume_label, write, write_staged, write_total};
use strandlodge_sys::sparse;

/// The bytes of a sector.
const SECTOR: usize = SECTOR_SIZE as usize;
/// The sectors of a vault with up to 31 sectors of files.
const LEAST: u64 = 384;
/// The most bytes of a file.
const MOST: u64 = 1_073_739_776;

type Files = Vec<(String, Vec<u8>)>;

/// Files of these sizes, each of other bytes, under names of a byte, of 127 bytes, and with a number.
fn sized(sizes: &[usize]) -> Files {
    let name = |i: usize| match i {
        0 => "~".to_string(),
        1 => "n".repeat(127),
        _ => format!("cue{i}"),
    };
    sizes.iter().enumerate().map(|(i, size)| (name(i), noise(size + i)[i..].to_vec())).collect()
}

/// Vaults of no files, one, three, five and 64.
fn vaults() -> Vec<Files> {
    let sizes = [0, 1, 2047, 2048, 2049];
    let alike = (b'!'..=b'`').chain([b'{']).filter(|c| *c != b'/');
    let alike = alike.enumerate().map(|(i, c)| (format!("10.{}", char::from(c)), noise(i * 100)));
    let long = (0..64).map(|i| (format!("{i:02}{}", "x".repeat(125)), noise(sizes[i % 5])));
    let several = [&[][..], &[0], &[1], &[3 << 20], &[2047, 0, 3 << 20], &[2048, 2049, 1], &sizes].map(sized);
    several.into_iter().chain([alike.collect(), long.collect()]).collect()
}

/// The files in a folder, and the words of a command that makes a vault of them. A name may begin as an option does.
fn staged(folder: &Folder, files: &Files) -> Vec<String> {
    std::fs::create_dir_all(folder.at("from")).unwrap();
    let words = ["make", "--force", "v.img", "--"].map(str::to_string).into_iter();
    words
        .chain(files.iter().map(|(name, bytes)| {
            put(folder.at("from").join(name), bytes).unwrap();
            format!("from/{name}")
        }))
        .collect()
}

/// A folder with the vault of these files. One of no files is written by the library alone.
fn made(files: &Files) -> Folder {
    let folder = Folder::new();
    if files.is_empty() {
        std::fs::create_dir(folder.at("from")).unwrap();
        folder.write("v.img", &write(files).unwrap());
        return folder;
    }
    let said = folder.vault(&staged(&folder, files));
    assert_eq!((said.status, said.error.as_str()), (0, ""), "{said:?}");
    folder
}

/// What a program that reads images did, in the folder.
fn ran(folder: &Folder, program: &PathBuf, words: &[&str], input: &[u8]) -> Output {
    folder.write("input", input);
    let input = std::fs::File::open(folder.at("input")).unwrap();
    let mut command = Command::new(program);
    command.args(words).current_dir(&folder.0).stdin(input).stdout(Stdio::piped()).stderr(Stdio::piped());
    command.output().unwrap()
}

#[test]
fn the_library_reads_what_it_writes() {
    for files in vaults() {
        let image = write(&files).unwrap();
        let names: Vec<&str> = files.iter().map(|(name, _)| name.as_str()).collect();
        let lengths: Vec<u64> = files.iter().map(|(_, bytes)| bytes.len() as u64).collect();
        assert_eq!(image.len() as u64, write_total(&names, &lengths).unwrap() * SECTOR_SIZE);
        assert!(probe_vrs(&image) && read_volume_label(&image).unwrap() == "VAULT");
        for bits in 0..8 {
            let how = How { highest: bits & 4 != 0, checked: bits & 1 != 0, maps: bits & 2 != 0 };
            let vault = Counted::open_as(&image, how).unwrap();
            assert_eq!(vault.sectors, 8);
            let listed = vault.read_directory(vault.root_directory_icb()).unwrap().value;
            assert!(listed.iter().all(|entry| !entry.is_directory));
            assert_eq!(listed.iter().map(|entry| entry.name.as_str()).collect::<Vec<_>>(), names);
            for ((name, bytes), entry) in files.iter().zip(&listed) {
                for matching in [Matching::CaseIgnored, Matching::AsWritten, Matching::Unambiguous] {
                    assert_eq!(vault.lookup_as(name, matching).unwrap().value, entry.icb);
                }
                assert!(vault.read_file(entry.icb).unwrap().value == *bytes, "{name}");
            }
        }
    }
}

#[test]
fn the_command_writes_the_same() {
    for files in vaults() {
        let folder = made(&files);
        assert!(read(folder.at("v.img")).unwrap() == write(&files).unwrap());
        assert!(folder.vault(&["check", "--checked", "v.img"]).out.ends_with(" descriptors, each in place and with a right body\n"));
        // A backslash is shown as two.
        let listed: String = files.iter().map(|(name, _)| name.replace('\\', "\\\\") + "\n").collect();
        assert_eq!(folder.vault(&["ls", "v.img"]).out, listed);
        for (name, bytes) in files.iter().step_by(7) {
            assert!(folder.vault(&["cat", "--as-written", "--raw", "v.img", "--", name]).bytes == *bytes, "{name}");
        }
        // The files, the image, and nothing else.
        assert_eq!(folder.names(), ["from", "v.img"]);
    }
}

/// The vault that the model of docs/LAYOUT.md has written, byte for byte.
#[test]
fn the_command_writes_the_stored_vault() {
    let bytes: Vec<u8> = (0..9097u32).map(|k| (k % 256 * 7 + k / 2048) as u8).collect();
    let parts = [("9", 0..0), ("10.1A", 0..2049), ("Interval.look", 2049..4097), ("11", 4097..9097)];
    let folder = made(&parts.map(|(name, part)| (name.to_string(), bytes[part].to_vec())).into());
    let stored = sparse::expand(include_bytes!("../../crates/writer_cases/data/written")).unwrap();
    assert!(read(folder.at("v.img")).unwrap() == stored);
}

#[test]
fn a_refused_vault_leaves_nothing_behind() {
    let folder = Folder::new();
    folder.write("v.img", b"what was there");
    folder.write("a", b"1");
    folder.write("A", b"2");
    folder.write("a b", b"3");
    folder.write(&"n".repeat(128), b"4");
    std::fs::create_dir(folder.at("folder")).unwrap();
    std::fs::create_dir(folder.at("other")).unwrap();
    folder.write("other/a", b"5");
    (0..65).for_each(|i| folder.write(&format!("{i}"), b""));
    // As long as a file that is one byte too long, of which no byte is written.
    std::fs::File::create(folder.at("long")).unwrap().set_len(MOST + 1).unwrap();
    let before = folder.names();
    let refuses = |words: &[&str], status: i32, phrase: &str| {
        let said = folder.vault(&[&["make", "--force"], words].concat());
        assert_eq!((said.status, said.out.as_str(), said.error.lines().count()), (status, "", 1), "{words:?} {said:?}");
        assert!(said.error.contains(phrase), "{words:?} {said:?}");
        assert_eq!(folder.names(), before, "{words:?}");
        assert_eq!(read(folder.at("v.img")).unwrap(), b"what was there");
    };
    let all: Vec<String> = (0..65).map(|i| i.to_string()).collect();
    let all: Vec<&str> = all.iter().map(String::as_str).collect();
    // Which name or file, which rule, and the twin.
    let equal = "a has the same name, ignoring ASCII case: names on an image must differ (refusal 13)";
    refuses(&["v.img", "a", "a b"], 13, "a b: the name contains the byte 20: an image takes 21 to 7E without the slash (refusal 13)");
    refuses(&["v.img", "0", "a", "A"], 13, &format!("vault: A: {equal}"));
    refuses(&["v.img", "a", "other/a"], 13, &format!("vault: other/a: {equal}"));
    refuses(&["v.img", &"n".repeat(128)], 13, "n: the name has 128 bytes: an image takes up to 127 (refusal 13)");
    refuses(&["v.img", ".."], 13, "..: this path does not end in a file name (refusal 13)");
    refuses(&[&["v.img"], &all[..]].concat(), 14, "v.img: 65 files are too many: an image holds up to 64 (refusal 14)");
    refuses(&[&["v.img", "a b"], &all[..]].concat(), 13, "a b: ");
    // Thousands are refused in an instant, and a name that two of them have is still found first.
    let many: Vec<String> = (0..20_000).map(|i| format!("many-{i}")).collect();
    let many: Vec<&str> = many.iter().map(String::as_str).collect();
    let began = std::time::Instant::now();
    refuses(&[&["v.img"], &many[..]].concat(), 14, "v.img: 20000 files are too many: an image holds up to 64 (refusal 14)");
    refuses(&[&["v.img"], &many[..], &["MANY-7"]].concat(), 13, "vault: MANY-7: many-7 has the same name");
    assert!(began.elapsed().as_secs() < 5, "{:?}", began.elapsed());
    let long = "long: the file has 1073739777 bytes: an image takes up to 1073739776 (refusal 14)";
    refuses(&["v.img", "a", "long"], 14, long);
    refuses(&["v.img", "a", "none"], 66, "none: can't open this file");
    refuses(&["v.img", "a", "folder"], 66, "folder: not a regular file");
    refuses(&["v.img", "./v.img"], 64, "this is the image itself: choose another file");
    refuses(&["folder", "a"], 74, "this is a directory");
    refuses(&["no/v.img", "a"], 74, "can't write this file");
    refuses(&[], 64, "make needs IMAGE");
    // No vault of nothing, with what is there replaced or not.
    refuses(&["v.img"], 64, "make needs FILE");
    refuses(&["new.img"], 64, "make needs FILE");
}

/// What is there is replaced where that is forced, and else left as it is: a file of a forgotten image's place, too.
#[test]
fn what_is_there_is_replaced_by_force_alone() {
    let folder = Folder::new();
    let cues = ["9", "10.1A", "11"];
    cues.iter().for_each(|cue| folder.write(cue, cue.as_bytes()));
    std::os::unix::fs::symlink("9", folder.at("link")).unwrap();
    let says = "this file exists: use --force to replace it";
    for words in [&["make", "9", "10.1A", "11"][..], &["make", "link", "11"], &["make", "9", "9"], &["sample", "9"], &["sample", "link"]] {
        let said = folder.vault(words);
        let hint = if words[0] == "make" { "; the first argument, IMAGE, is the file to write" } else { "" };
        assert_eq!((said.status, said.out.as_str(), said.error), (74, "", format!("vault: {}: {says}{hint}\n", words[1])), "{words:?}");
    }
    assert!(cues.iter().all(|cue| read(folder.at(cue)).unwrap() == cue.as_bytes()));
    assert_eq!(folder.names(), ["10.1A", "11", "9", "link"]);
    let said = folder.vault(&["make", "new.img", "9", "11"]);
    assert_eq!((said.status, said.out.as_str()), (0, "new.img: 2 files, 384 sectors\n"));
    assert_eq!(folder.vault(&["make", "new.img", "11"]).status, 74);
    let said = folder.vault(&["make", "new.img", "11", "--force"]);
    assert_eq!((said.status, said.out.as_str()), (0, "new.img: 1 file, 384 sectors\n"));
    assert_eq!(folder.vault(&["ls", "new.img"]).out, "11\n");
    assert_eq!(folder.vault(&["sample", "--force", "new.img"]).status, 0);
    assert_eq!(folder.vault(&["ls", "new.img"]).out, "SHOW/\n");
    // Standard output is no file that is there.
    assert!(folder.vault(&["sample", "/dev/stdout"]).bytes == read(folder.at("new.img")).unwrap());
}

/// The library's calls: 13, 14 and 5 in this order, and nothing written.
#[test]
fn refusals_come_in_their_order() {
    let good = ["a", "b"];
    assert_eq!(write_total(&good, &[0, MOST]), Ok((384 + MOST / 2048) / 32 * 32));
    assert_eq!(write_total(&good, &[0, MOST + 1]), Err(Refusal::BadFiles));
    assert_eq!(write_total(&good, &[0]), Err(Refusal::BadFiles));
    assert_eq!(write_total(&["a", "A"], &[0]), Err(Refusal::BadName));
    // A zero byte in a name would make two of it.
    assert_eq!(write_total(&["a\0b"], &[0, 0]), Err(Refusal::BadName));
    assert_eq!(write(&[("a\0b", "")]), Err(Refusal::BadName));
    for length in [0, 1, SECTOR, LEAST as usize * SECTOR - 1] {
        let mut image = vec![0xa5; length];
        assert_eq!(write_staged(&["a", "a"], &[9], b"", &mut image), Err(Refusal::BadName));
        assert_eq!(write_staged(&good, &[4, 5], b"eight by", &mut image), Err(Refusal::BadFiles));
        assert_eq!(write_staged(&good, &[4, 5], b"nine byte", &mut image), Err(Refusal::NoRoom));
        assert!(image.iter().all(|byte| *byte == 0xa5));
    }
    let mut image = vec![0xa5; LEAST as usize * SECTOR + 700];
    assert_eq!(write_staged(&good, &[4, 5], b"nine byte and more", &mut image), Ok(LEAST));
    assert!(image[LEAST as usize * SECTOR..].iter().all(|byte| *byte == 0xa5));
    assert!(image[..LEAST as usize * SECTOR] == write(&[("a", "nine"), ("b", " byte")]).unwrap());
    // 64 names are taken and 65 aren't.
    let names: Vec<String> = (0..65).map(|i| i.to_string()).collect();
    assert_eq!(write_total(&names[..64], &[0; 64]), Ok(LEAST));
    assert_eq!(write_total(&names, &[0; 65]), Err(Refusal::BadFiles));
}

#[test]
fn seven_zip_reads_a_vault() {
    let Some(program) = ["7z", "7zz", "7za"].iter().find_map(|name| tool(name)) else {
        return left_out("vaults that 7-Zip reads", "7z");
    };
    for files in vaults() {
        let folder = made(&files);
        let said = ran(&folder, &program, &["x", "-y", "-oto", "v.img"], b"");
        let text = String::from_utf8_lossy(&said.stdout).into_owned();
        assert!(said.status.success() && text.contains("Everything is Ok") && !text.to_lowercase().contains("warning"), "{text}");
        for (name, bytes) in &files {
            assert!(read(folder.at("to").join(name)).unwrap() == *bytes, "{name}");
        }
    }
}

#[test]
fn udfinfo_reads_a_vault() {
    let Some(program) = tool("udfinfo") else {
        return left_out("vaults that udfinfo reads", "udfinfo");
    };
    for files in vaults() {
        let folder = made(&files);
        let said = ran(&folder, &program, &["v.img"], b"");
        let sectors = read(folder.at("v.img")).unwrap().len() / SECTOR;
        // It warns on standard error.
        assert!(said.status.success() && said.stderr.is_empty(), "{said:?}");
        let text = String::from_utf8_lossy(&said.stdout).into_owned();
        let lines = [
            "label=VAULT",
            "udfrev=1.02",
            "integrity=closed",
            "numdirs=1",
            "start=16, blocks=3, type=VRS",
            "start=32, blocks=16, type=MVDS",
        ];
        let more =
            [format!("numfiles={}", files.len()), format!("blocks={sectors}"), format!("start={}, blocks=1, type=ANCHOR", sectors - 1)];
        for line in lines.iter().copied().chain(more.iter().map(String::as_str)) {
            assert!(text.lines().any(|there| there == line), "{line}: {text}");
        }
    }
}

/// Its shell has its own meaning for some signs, so that names of letters, digits and dots are asked for.
#[test]
fn udfclient_reads_a_vault() {
    let Some(program) = tool("udfclient") else {
        return left_out("vaults that udfclient reads", "udfclient");
    };
    for files in vaults().into_iter().filter(|files| !files.is_empty()) {
        let plain = |name: &str| name.bytes().all(|byte| byte.is_ascii_alphanumeric() || byte == b'.');
        let folder = made(&files);
        let asked: Vec<&(String, Vec<u8>)> = files.iter().filter(|(name, _)| plain(name)).collect();
        let gets: String = asked.iter().enumerate().map(|(i, (name, _))| format!("get {name} got{i}\n")).collect();
        let words = format!("cd 386D438000000000VAULT:VAULT:VAULT:VAULT\nls\n{gets}quit\n");
        let said = ran(&folder, &program, &["-b", "2048", "v.img"], words.as_bytes());
        let text = String::from_utf8_lossy(&said.stdout).into_owned();
        assert!(said.status.success() && files.iter().all(|(name, _)| text.contains(name.as_str())), "{text}");
        for (i, (name, bytes)) in asked.iter().enumerate() {
            assert!(read(folder.at(&format!("got{i}"))).unwrap() == *bytes, "{name}");
        }
    }
}

#[test]
fn grub_reads_a_vault() {
    let Some(program) = tool("grub-fstest") else {
        return left_out("vaults that GRUB reads", "grub-fstest");
    };
    for files in vaults() {
        let folder = made(&files);
        for (name, bytes) in files.iter().step_by(3) {
            let said = ran(&folder, &program, &["v.img", "cat", &format!("/{name}")], b"");
            assert!(said.status.success() && said.stdout == *bytes, "{name} {}", String::from_utf8_lossy(&said.stderr));
        }
        let said = ran(&folder, &program, &["v.img", "ls", "/"], b"");
        let listed: Vec<&[u8]> = said.stdout.split(|byte| *byte == b' ' || *byte == b'\n').filter(|name| !name.is_empty()).collect();
        assert_eq!(listed, files.iter().map(|(name, _)| std::ffi::OsStr::new(name).as_bytes()).collect::<Vec<_>>());
    }
}
