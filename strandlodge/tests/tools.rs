//! Images made by tools that nobody here wrote, through the built command. Each test is left out, with a line that says so, where its tool
//! isn't installed.

mod common;

use common::command::{Folder, Said, left_out, tool};
use common::{SECTOR, noise, seal};
use std::path::Path;
use std::process::Command;

/// Names that genisoimage records as they are. (It writes an underscore for control characters and for some signs, and a directory
/// that nothing can parse for a name of 255 bytes: docs/DIFFERENCES.md.)
fn names() -> Vec<String> {
    let plain = ["plain.txt", "UPPER.TXT", "with space", "  two  ", ".hidden", "..two", "trailing.", "per%cent", "quote'\"", "<|>", "~$"];
    let wide = ["naïve café", "ÿ", "Ω", "日本語", "mixé日", "e\u{301} combining", "nb\u{a0}sp"];
    let long = ["x".repeat(200), "x".repeat(254), "é".repeat(127), "日".repeat(85)];
    plain.iter().chain(&wide).map(|name| name.to_string()).chain(long).collect()
}

/// Files of many sizes and names, folders six deep, and a folder whose identifiers have more than 64 KiB.
fn fill(folder: &Path) {
    let deep = folder.join("a folder/b/c/d/e/f");
    for made in [&deep, &folder.join("empty"), &folder.join("wide")] {
        std::fs::create_dir_all(made).unwrap();
    }
    let write = |path: &Path, bytes: &[u8]| std::fs::write(path, bytes).unwrap();
    for size in [0, 1, 2047, 2048, 2049, 4096, 65_536, 65_537, 100_000, 3_000_000] {
        write(&folder.join(format!("of {size}")), &noise(size));
    }
    for name in names() {
        write(&folder.join(&name), name.as_bytes());
        write(&deep.join(&name), format!("{name}, deep").as_bytes());
    }
    for i in 0..600 {
        write(&folder.join(format!("wide/{i:0100}")), i.to_string().as_bytes());
    }
}

/// Holds a folder on the image to the one that it was made from, and all below it. Gives how many files were read.
fn hold(folder: &Folder, image: &str, path: &str, original: &Path) -> usize {
    let mut expected = Vec::new();
    for entry in std::fs::read_dir(original).unwrap().map(Result::unwrap) {
        let name = entry.file_name().into_string().unwrap();
        expected.push((name, entry.path()));
    }
    let listed = folder.vault(&["ls", image, path]);
    assert_eq!((listed.status, listed.error.as_str()), (0, ""), "{path}");
    assert_eq!(folder.vault(&["ls", "--checked", image, path]).out, listed.out, "{path}");
    assert_eq!(folder.vault(&["ls", "--maps", image, path]).out, listed.out, "{path}");
    let mut listed: Vec<&str> = listed.out.lines().collect();
    let mut names: Vec<String> = expected.iter().map(|(name, at)| name.clone() + if at.is_dir() { "/" } else { "" }).collect();
    listed.sort();
    names.sort();
    assert_eq!(listed, names, "{path}");
    let mut read = 0;
    for (name, at) in expected {
        let path = format!("{path}/{name}");
        if at.is_dir() {
            read += hold(folder, image, &path, &at);
            continue;
        }
        for how in [&[][..], &["--checked"], &["--maps"]] {
            let said = folder.vault(&[how, &["cat", image, &path]].concat());
            assert!(said.status == 0 && said.error.is_empty() && said.bytes == std::fs::read(&at).unwrap(), "{path} {}", said.error);
        }
        read += 1;
    }
    read
}

/// Every descriptor of the image is where its tag says, and has the body that its tag has the CRC of.
fn in_place(folder: &Folder, image: &str) {
    all_right(folder, &["check", image]);
}

fn all_right(folder: &Folder, words: &[&str]) -> String {
    let said = folder.vault(words);
    assert!(
        said.status == 0 && said.out.ends_with(" descriptors, each in place and with a right body\n") && said.error.is_empty(),
        "{said:?}"
    );
    said.out
}

/// The image with its one partition under another number, as its map has it: every reference is still 0.
fn renumbered(mut image: Vec<u8>) -> Vec<u8> {
    let number = |b: &[u8], at: usize| u32::from_le_bytes(b[at..at + 4].try_into().unwrap()) as usize;
    let (length, first) = (number(&image, 256 * SECTOR + 16), number(&image, 256 * SECTOR + 20));
    for whole in image[first * SECTOR..][..length].chunks_mut(SECTOR) {
        let at = match whole[0] {
            5 => 22,
            6 => 444,
            _ => continue,
        };
        whole[at..at + 2].copy_from_slice(&7u16.to_le_bytes());
        let summed = u16::from_le_bytes([whole[10], whole[11]]).into();
        seal(whole, summed);
    }
    image
}

#[test]
fn genisoimage() {
    let Some(tool) = tool("genisoimage") else {
        return left_out("images of genisoimage", "genisoimage");
    };
    let folder = Folder::new();
    fill(&folder.at("from"));
    let words = ["-quiet", "-udf", "-input-charset", "utf-8", "-V", "A SHOW", "-o", "disc.iso", "from"];
    assert!(Command::new(tool).args(words).current_dir(&folder.0).status().unwrap().success());
    assert_eq!(folder.vault(&["label", "disc.iso"]).out, "A SHOW\n");
    assert_eq!(hold(&folder, "disc.iso", "", &folder.at("from")), 10 + 2 * names().len() + 600);
    in_place(&folder, "disc.iso");
    // By its number the partition isn't found any more, and by its map it is.
    folder.write("other.iso", &renumbered(std::fs::read(folder.at("disc.iso")).unwrap()));
    let lost = folder.vault(&["ls", "other.iso"]);
    assert!(lost.status == 4 && lost.error.contains("; --maps opens it, through its partition maps; "), "{lost:?}");
    assert_eq!(folder.vault(&["ls", "--maps", "other.iso", "wide"]).out, folder.vault(&["ls", "disc.iso", "wide"]).out);
    assert_eq!(all_right(&folder, &["check", "--maps", "--checked", "other.iso"]), all_right(&folder, &["check", "disc.iso"]));
    assert!(folder.vault(&["cat", "--maps", "other.iso", "of 3000000"]).bytes == noise(3_000_000));
    let large = folder.vault(&["get", "disc.iso", "of 3000000", "copy"]);
    assert_eq!((large.status, large.error.as_str()), (0, ""));
    assert!(std::fs::read(folder.at("copy")).unwrap() == noise(3_000_000));
}

/// Two names that differ in case alone: both are listed, and each is had by its own; by the original's rule either path gives the first.
#[test]
fn genisoimage_with_two_cases() {
    let Some(tool) = tool("genisoimage") else {
        return left_out("two cases on an image of genisoimage", "genisoimage");
    };
    let folder = Folder::new();
    std::fs::create_dir(folder.at("from")).unwrap();
    folder.write("from/10.1A", b"upper");
    folder.write("from/10.1a", b"lower");
    assert!(Command::new(tool).args(["-quiet", "-udf", "-o", "disc.iso", "from"]).current_dir(&folder.0).status().unwrap().success());
    let listed = folder.vault(&["ls", "disc.iso"]).out;
    let first = if listed == "10.1A\n10.1a\n" { "upper" } else { "lower" };
    assert!(listed == "10.1A\n10.1a\n" || listed == "10.1a\n10.1A\n", "{listed}");
    assert_eq!(folder.vault(&["cat", "--as-original", "disc.iso", "10.1A"]).out, first);
    assert_eq!(folder.vault(&["cat", "--as-original", "disc.iso", "10.1a"]).out, first);
    for choice in [&[][..], &["--as-written"]] {
        assert_eq!(folder.vault(&[&["cat", "disc.iso", "10.1A"], choice].concat()).out, "upper");
        assert_eq!(folder.vault(&[&["cat", "disc.iso", "10.1a"], choice].concat()).out, "lower");
    }
    assert_eq!(folder.vault(&["cat", "--unambiguous", "disc.iso", "10.1a"]).status, 9);
}

/// An image of 32 MiB by mkudffs, and what the label and the root then come to.
fn mkudffs(tool: &Path, words: &[&str]) -> (Folder, i32, i32) {
    let folder = Folder::new();
    std::fs::File::create(folder.at("disc.img")).unwrap().set_len(32 << 20).unwrap();
    let made = Command::new(tool).args(["--utf8", "--label=Ünï 日"]).args(words).arg("disc.img").current_dir(&folder.0).output().unwrap();
    assert!(made.status.success(), "{words:?} {}", String::from_utf8_lossy(&made.stderr));
    let (label, root) = (folder.vault(&["label", "disc.img"]), folder.vault(&["ls", "disc.img"]));
    if label.status == 0 {
        assert_eq!((label.out.as_str(), root.out.as_str()), ("Ünï 日\n", ""), "{words:?}");
        assert_eq!(folder.vault(&["probe", "disc.img"]).out, "yes\n");
        assert!(folder.vault(&["stat", "disc.img", ""]).out.contains("kind     directory"));
        in_place(&folder, "disc.img");
    }
    // A map of type 2 isn't read, whether or not the disc is without maps.
    let (maps, plain) = (folder.vault(&["ls", "--maps", "disc.img"]), folder.vault(&["stat", "disc.img"]));
    let other = plain.out.lines().any(|line| line.starts_with("map ") && line.ends_with("not supported"));
    assert_eq!(maps.status, if other { 4 } else { root.status }, "{words:?} {plain:?}");
    (folder, label.status, root.status)
}

#[test]
fn mkudffs_makes_empty_volumes() {
    let Some(tool) = tool("mkudffs") else {
        return left_out("images of mkudffs", "mkudffs");
    };
    for media in ["hd", "dvd", "dvdram"] {
        for revision in ["1.02", "1.50", "2.00", "2.01"] {
            let (_folder, label, root) = mkudffs(&tool, &["-b", "2048", "-m", media, "-r", revision]);
            assert_eq!((label, root), (0, 0), "{media} {revision}");
        }
    }
    for kind in ["--ad=inicb", "--ad=short", "--ad=long", "--noefe"] {
        let (_folder, label, root) = mkudffs(&tool, &["-b", "2048", kind]);
        assert_eq!((label, root), (0, 0), "{kind}");
    }
}

/// What `info` says is what udfinfo says of the same image.
#[test]
fn info_beside_udfinfo() {
    let (Some(make), Some(info)) = (tool("mkudffs"), tool("udfinfo")) else {
        return left_out("info beside udfinfo", "mkudffs or udfinfo");
    };
    for revision in ["1.02", "1.50", "2.00", "2.01"] {
        let (folder, ..) = mkudffs(&make, &["-b", "2048", "-m", "hd", "-r", revision, "--lvid=Volume 日"]);
        let said = Command::new(&info).args(["--utf8", "disc.img"]).current_dir(&folder.0).output().unwrap();
        let said = String::from_utf8(said.stdout).unwrap();
        let value = |key: &str| said.lines().find_map(|line| line.strip_prefix(key)?.strip_prefix('=')).unwrap().to_string();
        let ours = folder.vault(&["info", "disc.img"]);
        assert_eq!(ours.status, 0, "{ours:?}");
        for line in [
            format!("label    {}", value("vid")),
            format!("volume   {}", value("lvid")),
            format!("revision UDF {}", value("udfrev")),
            format!("state    {}, by sector ", value("integrity")),
            format!("free     {} of ", value("freeblocks")),
            format!("holds    files: {}, directories: {}", value("numfiles"), value("numdirs")),
        ] {
            assert!(ours.out.contains(&line), "{line} {ours:?}");
        }
    }
}

/// Sparable partitions, which are read as if nothing had been spared, and aren't through their map (docs/DIFFERENCES.md).
#[test]
fn mkudffs_for_rewritable_discs() {
    let Some(tool) = tool("mkudffs") else {
        return left_out("images of mkudffs for rewritable discs", "mkudffs");
    };
    for (media, revision) in [("cdrw", "2.01"), ("dvdrw", "2.01")] {
        let (folder, label, root) = mkudffs(&tool, &["-b", "2048", "-m", media, "-r", revision]);
        assert_eq!((label, root), (0, 0), "{media} {revision}");
        assert!(folder.vault(&["stat", "disc.img"]).out.contains("type 2 (*UDF Sparable Partition), 64 bytes: not supported\n"));
        assert_eq!(folder.vault(&["ls", "disc.img", "--maps"]).status, 4);
    }
}

/// What the original doesn't read is refused as it refuses it (docs/DIFFERENCES.md).
#[test]
fn mkudffs_in_forms_that_are_not_read() {
    let Some(tool) = tool("mkudffs") else {
        return left_out("images of mkudffs that are refused", "mkudffs");
    };
    for (media, revision) in [("cdr", "1.50"), ("dvdr", "2.01"), ("bdr", "2.50"), ("bdr", "2.60")] {
        let (folder, label, root) = mkudffs(&tool, &["-b", "2048", "-m", media, "-r", revision]);
        assert_eq!((label, root), (4, 4), "{media} {revision}");
        let said = folder.vault(&["ls", "disc.img"]);
        assert!(said.error.contains("partition map 1 is of type 2 (*UDF Virtual Partition); only type 1 is supported"), "{said:?}");
    }
    for block in ["512", "1024", "4096"] {
        let (folder, label, root) = mkudffs(&tool, &["-b", block]);
        assert_eq!((label, root), (2, 2), "{block}");
        for words in [&["ls", "disc.img"][..], &["ls", "disc.img", "--drive"]] {
            let said = folder.vault(words);
            assert!(said.error.starts_with(&format!("vault: disc.img: the disc has blocks of {block} bytes; only ")), "{said:?}");
        }
    }
}

/// The files that are put on a volume, by their paths; udfclient takes names of ASCII letters as they are.
fn put() -> Vec<(String, Vec<u8>)> {
    let sizes = [0, 1, 2047, 2048, 2049, 4096, 65_536, 65_537, 100_000, 3_000_000];
    let sized = sizes.iter().map(|size| (format!("of {size}"), noise(*size)));
    let long = "x".repeat(200);
    let names = ["plain.txt", "UPPER.TXT", ".hidden", "trailing.", "per%cent", "SHOW/11", "SHOW/DEEP/one", "SHOW/DEEP/two", &long];
    sized.chain(names.iter().map(|name| (name.to_string(), name.as_bytes().to_vec()))).collect()
}

/// What udfclient is told: the volume, and each folder when the first file of it comes.
fn told(volume: &str, files: &[(String, Vec<u8>)]) -> String {
    let (mut words, mut at) = (format!("cd {volume}\n"), "");
    for (i, (path, _)) in files.iter().enumerate() {
        let (folder, name) = path.rsplit_once('/').unwrap_or(("", path));
        if folder != at {
            let last = folder.rsplit('/').next().unwrap();
            words += &format!("mkdir {last}\ncd {last}\n");
            at = folder;
        }
        words += &format!("put from/{i} \"{name}\"\n");
    }
    words + "quit\n"
}

/// Has udfclient put files on a new disc, whose volume goes by this name with it, and reads them.
fn fill_by(client: &Path, folder: &Folder, volume: &str) {
    // Deepest last: the client is told to go into folders, and never back.
    let mut files = put();
    files.sort_by_key(|(path, _)| path.matches('/').count());
    std::fs::create_dir(folder.at("from")).unwrap();
    files.iter().enumerate().for_each(|(i, (_, bytes))| folder.write(&format!("from/{i}"), bytes));
    folder.write("words", told(volume, &files).as_bytes());
    let words = std::fs::File::open(folder.at("words")).unwrap();
    let said = Command::new(client).args(["-b", "2048", "-W", "disc.img"]).stdin(words).current_dir(&folder.0).output().unwrap();
    assert!(said.status.success(), "{}", String::from_utf8_lossy(&said.stdout));
    assert_eq!(folder.vault(&["ls", "disc.img", "SHOW"]).out, "11\nDEEP/\n");
    for (path, bytes) in &files {
        for how in [&[][..], &["--checked"], &["--maps"]] {
            let said = folder.vault(&[how, &["cat", "disc.img", path]].concat());
            assert!(said.status == 0 && said.error.is_empty() && said.bytes == *bytes, "{volume} {path} {}", said.error);
        }
    }
    in_place(folder, "disc.img");
}

/// Files that udfclient put on volumes of mkudffs.
#[test]
fn mkudffs_with_files_of_udfclient() {
    let (Some(make), Some(client)) = (tool("mkudffs"), tool("udfclient")) else {
        return left_out("files on volumes of mkudffs", "mkudffs or udfclient");
    };
    for revision in ["1.02", "2.01"] {
        let folder = Folder::new();
        // 400 MB, of which 4 are written: on a smaller disc udfclient soon says that it is full.
        let words =
            ["--new-file", "-b", "2048", "-m", "hd", "-r", revision, "--uuid=0123456789abcdef", "--label=DISC", "disc.img", "200000"];
        assert!(Command::new(&make).args(words).current_dir(&folder.0).output().unwrap().status.success());
        fill_by(&client, &folder, "0123456789abcdefLinuxUDF:DISC:DISC:LinuxUDF");
    }
}

/// The same on a volume of udfclient's own newfs_udf.
#[test]
fn newfs_udf_with_files_of_udfclient() {
    let (Some(make), Some(client)) = (tool("newfs_udf"), tool("udfclient")) else {
        return left_out("files on a volume of newfs_udf", "newfs_udf or udfclient");
    };
    let folder = Folder::new();
    let words = ["-S", "SET", "-P", "DISC", "-L", "DISC", "-b", "2048", "-s", "200000", "disc.img"];
    assert!(Command::new(&make).args(words).current_dir(&folder.0).output().unwrap().status.success());
    assert_eq!(folder.vault(&["label", "--checked", "disc.img"]).out, "DISC\n");
    fill_by(&client, &folder, "SET:DISC:DISC:fileset");
}

/// The sample show in a folder of its own, and what a program says of it there.
fn sample_by(program: &Path, words: &[&str]) -> (Folder, Said) {
    let folder = Folder::new();
    assert_eq!(folder.vault(&["sample", "show.img"]).status, 0);
    let said = Said::of(Command::new(program).args(words).current_dir(&folder.0).output().unwrap());
    assert!(said.status == 0 && said.error.is_empty() && !said.out.to_lowercase().contains("warning"), "{said:?}");
    (folder, said)
}

/// The cues of the sample show.
const CUES: [&str; 4] = ["9", "10.1A", "10.1a", "11"];

#[test]
fn seven_zip_reads_the_sample() {
    let Some(program) = ["7z", "7zz", "7za"].iter().find_map(|name| tool(name)) else {
        return left_out("the sample that 7-Zip reads", "7z");
    };
    let (_, said) = sample_by(&program, &["l", "-slt", "show.img"]);
    assert!(said.out.contains("Type = Udf\n") && CUES.iter().all(|cue| said.out.contains(&format!("Path = SHOW/{cue}\n"))), "{said:?}");
    let (folder, said) = sample_by(&program, &["x", "-y", "-oto", "show.img"]);
    assert!(said.out.contains("Everything is Ok"), "{said:?}");
    std::fs::create_dir(folder.at("ours")).unwrap();
    assert_eq!(folder.vault(&["get", "-r", "show.img", "-o", "ours"]).status, 0);
    for cue in CUES {
        let bytes = |at: &str| std::fs::read(folder.at(at).join("SHOW").join(cue)).unwrap();
        assert_eq!(bytes("to"), bytes("ours"), "{cue}");
    }
}

#[test]
fn udfinfo_reads_the_sample() {
    let Some(program) = tool("udfinfo") else {
        return left_out("the sample that udfinfo reads", "udfinfo");
    };
    let (_, said) = sample_by(&program, &["show.img"]);
    for line in
        ["label=SHOW 1", "udfrev=1.02", "integrity=closed", "numfiles=4", "numdirs=2", "blocks=352", "start=351, blocks=1, type=ANCHOR"]
    {
        assert!(said.out.lines().any(|there| there == line), "{line} {said:?}");
    }
}

#[test]
fn grub_reads_the_sample() {
    let Some(program) = tool("grub-fstest") else {
        return left_out("the sample that GRUB reads", "grub-fstest");
    };
    assert_eq!(sample_by(&program, &["show.img", "ls", "/SHOW/"]).1.out.split_whitespace().collect::<Vec<_>>(), CUES);
    for cue in CUES {
        let (folder, said) = sample_by(&program, &["show.img", "cat", &format!("/SHOW/{cue}")]);
        assert_eq!(said.out, folder.vault(&["cat", "--as-written", "show.img", &format!("SHOW/{cue}")]).out);
    }
}
