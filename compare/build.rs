//! Finds the original, and the archives for port.c.
//!
//! The original stands in the folder `UDF_ORIGINAL`, by default ../shared/docs/src beside the repository, and is never copied into the
//! tree. Its udf.rs is compiled word for word, but for the names of two functions, with a module behind it: the entry of a file and the
//! making of an opened disc are private there, and a module inside can reach them.
//!
//! One function is `decode_dstring`: one of that name behind the original's notes each d-string with compression id 254 or 255, which the
//! rules give an empty name and the original refuses, and hands every other on to it. The other is the parser of tags, through which the
//! original reads every descriptor, with the bytes at hand from it on: one of that name behind it makes the body check, where it is switched
//! on, on each tag that the original's own accepts.
//!
//! The archives are x86-64 code: `strandlodge-sys` links them where these programs are that too, and says in which folder they are. On every
//! machine they are linked with port.c into a program that answers through a pipe.

use std::path::{Path, PathBuf};
use std::process::Command;
use std::{env, fs};

/// The crates whose archives are compared with the original.
const CRATES: [&str; 4] = ["vault_c", "drives_c", "surveys_c", "records_c"];

/// How the original's parser of a tag goes on behind its name, which parsers of other records have too.
macro_rules! tag_parser {
    () => {
        "bytes: &[u8]) -> Result<Self> {
        if bytes.len() < Self::SIZE {
            return Err(BlurayError::malformed(\"descriptor tag truncated\"));"
    };
}

/// The original's reading of a d-string and of a tag, and the name that each has here.
const RENAMED: [[&str; 2]; 2] = [
    ["pub fn decode_dstring(payload", "fn decode_dstring_as_it_is(payload"],
    [concat!("pub fn parse(", tag_parser!()), concat!("fn parse_as_it_is(", tag_parser!())],
];

const INSIDE: &str = "
/// In the place of the original's function of this name.
pub fn decode_dstring(payload: &[u8]) -> Result<String> {
    if matches!(payload.first(), Some(254 | 255)) {
        within::REACHED.set(true);
        if within::BY_THE_RULE.get() {
            return Ok(String::new());
        }
    }
    decode_dstring_as_it_is(payload)
}

impl DescriptorTag {
    /// In the place of the original's function of this name.
    pub fn parse(bytes: &[u8]) -> Result<Self> {
        let tag = Self::parse_as_it_is(bytes)?;
        if within::CHECKED.get() {
            within::body(&tag, bytes)?;
        }
        Ok(tag)
    }
}

pub mod within {
    use super::*;
    use common::records::crc;
    use std::cell::Cell;

    /// The id of a tag whose body is wrong, and whether that is since its CRC length passes the bytes at hand.
    pub type Ruined = (u16, bool);

    thread_local! {
        /// Bodies are checked.
        pub static CHECKED: Cell<bool> = const { Cell::new(false) };
        /// The last body that was wrong.
        pub static RUINED: Cell<Option<Ruined>> = const { Cell::new(None) };
        /// How many bodies of a byte or more were right.
        pub static RIGHT: Cell<u64> = const { Cell::new(0) };
        /// A d-string with id 254 or 255 was reached.
        pub static REACHED: Cell<bool> = const { Cell::new(false) };
        /// Such a d-string has an empty name.
        pub static BY_THE_RULE: Cell<bool> = const { Cell::new(false) };
    }

    /// The body check, from the words of the rule. A wrong body is told by the one kind of error that nothing here gives: the original has no
    /// kind for it.
    pub fn body(tag: &DescriptorTag, bytes: &[u8]) -> Result<()> {
        let body = bytes.get(16..16 + usize::from(tag.crc_length));
        if body.is_some_and(|body| crc(body) == tag.crc) {
            RIGHT.set(RIGHT.get() + u64::from(tag.crc_length > 0));
            return Ok(());
        }
        RUINED.set(Some((tag.id as u16, body.is_none())));
        Err(BlurayError::Decrypt(String::new()))
    }

    /// What is asked of the original, with bodies checked or not, and the last body that was wrong.
    pub fn checked<T>(checked: bool, ask: impl FnOnce() -> T) -> (T, Option<Ruined>) {
        CHECKED.set(checked);
        RUINED.set(None);
        let came = ask();
        CHECKED.set(false);
        (came, RUINED.get())
    }

    /// What is asked of the original, and whether it was held to the rule: asked again with an empty name for each d-string with id 254
    /// or 255, since one was reached.
    pub fn asked<T>(ask: impl Fn() -> T) -> (T, bool) {
        REACHED.set(false);
        BY_THE_RULE.set(false);
        let came = ask();
        if !REACHED.get() {
            return (came, false);
        }
        BY_THE_RULE.set(true);
        let came = ask();
        BY_THE_RULE.set(false);
        (came, true)
    }

    /// An opened disc of these parts.
    pub fn disc<R: Read + Seek>(reader: R, start: u32, number: u16, root: LongAd) -> UdfDisc<R> {
        UdfDisc {
            reader,
            partition_start_sector: start as u64,
            partition_number: number,
            logical_block_size: 2048,
            root_directory_icb: root,
            volume_identifier: String::new(),
        }
    }

    /// The entry of a file, its chain followed to the end.
    pub fn entry<R: Read + Seek>(disc: &mut UdfDisc<R>, icb: LongAd) -> Result<FileEntry> {
        disc.read_file_entry(icb)
    }

    /// An area of descriptors, put behind those that an entry has; and whether it goes on elsewhere.
    pub fn area(entry: &mut FileEntry, area: &[u8]) -> Result<()> {
        entry.continuation =
            parse_ad_area(entry.ad_type, area, &mut entry.short_ads, &mut entry.long_ads, &mut entry.ext_ads)?;
        Ok(())
    }

    pub fn reader<R: Read + Seek>(disc: &mut UdfDisc<R>) -> &mut R {
        &mut disc.reader
    }
}
";

fn main() {
    let here = PathBuf::from(env::var("CARGO_MANIFEST_DIR").unwrap());
    let root = here.parent().unwrap();
    let out = PathBuf::from(env::var("OUT_DIR").unwrap());
    println!("cargo::rustc-check-cfg=cfg(original)");
    println!("cargo::rustc-check-cfg=cfg(linked)");
    println!("cargo::rustc-check-cfg=cfg(udfread)");
    println!("cargo::rerun-if-env-changed=UDF_ORIGINAL");
    let folder = env::var("UDF_ORIGINAL").map(PathBuf::from).unwrap_or(root.join("../shared/docs/src"));
    println!("cargo::rerun-if-changed={}", folder.join("src").display());
    println!("cargo::rustc-env=ORIGINAL_FOLDER={}", folder.display());
    if (target("ARCH").as_str(), target("OS").as_str()) == ("x86_64", "linux") {
        println!("cargo::rustc-cfg=linked");
    }
    // The race needs nothing of what follows.
    if !original(&folder.join("src"), &out) {
        return;
    }
    let Some(archives) = archives() else {
        return;
    };
    // libudfread takes part in the benchmark where it is installed.
    if Command::new("pkg-config").args(["--exists", "libudfread"]).status().is_ok_and(|s| s.success()) {
        println!("cargo::rustc-cfg=udfread");
        println!("cargo::rustc-link-lib=udfread");
    }
    port(root, &archives, &out);
}

/// What this is compiled for.
fn target(what: &str) -> String {
    env::var(format!("CARGO_CFG_TARGET_{what}")).unwrap()
}

/// The archives, if all are there.
fn archives() -> Option<Vec<PathBuf>> {
    let folder = PathBuf::from(env::var("DEP_STRANDLODGE_FOLDER").unwrap());
    let mut found = Vec::new();
    for name in CRATES {
        let archive = folder.join(format!("lib{name}.a"));
        println!("cargo::rerun-if-changed={}", archive.display());
        if !archive.exists() {
            println!("cargo::error={} is missing: make it with `tools/archives proved` in the repository's root", archive.display());
            return None;
        }
        found.push(archive);
    }
    Some(found)
}

/// Writes original.rs, which names the original's modules, where its two files are there.
fn original(folder: &Path, out: &Path) -> bool {
    let (Ok(udf), Ok(error)) = (fs::read_to_string(folder.join("udf.rs")), folder.join("error.rs").canonicalize()) else {
        return false;
    };
    let renamed = RENAMED.iter().fold(udf, |udf, [name, here]| {
        assert_eq!(udf.matches(name).count(), 1, "the original has it elsewhere: {name}");
        udf.replace(name, here)
    });
    fs::write(out.join("udf.rs"), renamed + INSIDE).unwrap();
    let text = format!(
        "#[allow(dead_code)]\n#[path = {:?}]\npub mod error;\n#[allow(dead_code)]\n#[path = {:?}]\npub mod udf;\n",
        error,
        out.join("udf.rs")
    );
    fs::write(out.join("original.rs"), text).unwrap();
    println!("cargo::rustc-cfg=original");
    true
}

/// The word that a command prints.
fn said(command: &str, words: &[&str]) -> String {
    let out = Command::new(command).args(words).output().unwrap_or_else(|e| panic!("{command}: {e}"));
    String::from_utf8(out.stdout).unwrap().trim().to_string()
}

fn run(command: &mut Command) {
    let out = command.output().unwrap_or_else(|e| panic!("{command:?}: {e}"));
    assert!(out.status.success(), "{command:?}: {}", String::from_utf8_lossy(&out.stderr));
}

/// Compiles port.c with the kit's compiler and links it with the archives, as rt links a program.
fn port(root: &Path, archives: &[PathBuf], out: &Path) {
    let source = env::var("COMPARE_PORT").map(PathBuf::from).unwrap_or(root.join("compare/port.c"));
    println!("cargo::rerun-if-env-changed=COMPARE_PORT");
    println!("cargo::rerun-if-changed={}", source.display());
    println!("cargo::rerun-if-changed={}", root.join("include").display());
    let page = said("rt", &["doc"]);
    let kit = Path::new(&page).parent().unwrap();
    let tools = kit.join("toolchain");
    // The kit has no headers: stdint.h and its like are the machine's compiler's.
    let headers = said("cc", &["-print-file-name=include"]);
    let (object, program) = (out.join("port.o"), out.join("port"));
    run(Command::new(tools.join("bin/clang"))
        .args(["-target", "x86_64-unknown-linux-gnu", "-std=c11", "-O2", "-fPIE", "-Wall", "-Wextra", "-Werror"])
        .args(["-ffreestanding", "-nostdinc", "-isystem", &headers, "-I"])
        .arg(root.join("include"))
        .arg("-I")
        .arg(root.join("compare"))
        .args(env::var("COMPARE_FLAGS").iter())
        .arg("-c")
        .arg(&source)
        .arg("-o")
        .arg(&object));
    println!("cargo::rerun-if-env-changed=COMPARE_FLAGS");
    run(Command::new(kit.join("bin/rattle-link"))
        .args(["--target", "x86_64-unknown-linux-gnu", "--toolchain"])
        .arg(&tools)
        .arg("-o")
        .arg(&program)
        .arg(&object)
        .args(archives));
    println!("cargo::rustc-env=PORT={}", program.display());
    println!("cargo::rustc-env=PORT_TOOLS={}", tools.display());
}
