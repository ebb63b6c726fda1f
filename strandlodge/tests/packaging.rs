//! What stands around the command: the script that runs it, what is installed, its man page and completions, and the example in C.

mod common;

use common::command::{Folder, Said, left_out, tool};
use common::{noise, show};
use std::fs::{self, Permissions};
use std::io::{self, Write};
use std::os::unix::fs::{PermissionsExt, symlink};
use std::path::{Path, PathBuf};
use std::process::Command;

fn root() -> PathBuf {
    Path::new(env!("CARGO_MANIFEST_DIR")).join("..")
}

/// Where the archives are that this was built with.
fn archives() -> PathBuf {
    option_env!("VAULT_ARCHIVE").map_or_else(|| root().join("target/staticlib"), PathBuf::from)
}

fn said(command: &mut Command) -> Said {
    Said::of(command.output().unwrap())
}

/// Whether this was built over proved archives. Others aren't installed: then what needs that is left out, and said to be.
fn is_proved(test: &str) -> bool {
    let version = said(Command::new(env!("CARGO_BIN_EXE_vault")).arg("--version"));
    let is = version.out.contains("Its proofs were checked");
    if !is {
        let _ = writeln!(io::stderr(), "left out: {test}, since the proofs were not checked");
    }
    is
}

/// Installs what is built into the folder `at`.
fn installed(folder: &Folder) -> PathBuf {
    let mut command = Command::new(root().join("install"));
    command.arg("/usr").env("DESTDIR", folder.at("at")).env("BUILT", env!("CARGO_BIN_EXE_vault")).env("ARCHIVES", archives());
    let done = said(&mut command);
    assert_eq!(done.status, 0, "{done:?}");
    folder.at("at/usr")
}

#[test]
fn everything_is_installed_and_taken_away() {
    if !is_proved("installing") {
        return;
    }
    let folder = Folder::new();
    let at = installed(&folder);
    let mut files = vec![
        "bin/vault",
        "include/vault.h",
        "include/records.h",
        "lib/libvault_c.a",
        "lib/libdrives_c.a",
        "lib/libsurveys_c.a",
        "lib/librecords_c.a",
        "lib/pkgconfig/strandlodge.pc",
    ];
    files.extend(["share/man/man1/vault.1", "share/bash-completion/completions/vault", "share/zsh/site-functions/_vault"]);
    files.extend(["share/fish/vendor_completions.d/vault.fish", "share/doc/strandlodge/NOTICE", "share/doc/strandlodge/CHANGELOG.md"]);
    for file in &files {
        assert!(at.join(file).is_file(), "{file}");
    }
    let config = fs::read_to_string(at.join("lib/pkgconfig/strandlodge.pc")).unwrap();
    assert!(config.contains("prefix=/usr\n") && config.contains(&format!("Version: {}\n", env!("CARGO_PKG_VERSION"))), "{config}");
    assert_eq!(said(Command::new(at.join("bin/vault")).arg("--version")).status, 0);
    let mut remove = Command::new(root().join("install"));
    assert_eq!(said(remove.args(["--remove", "/usr"]).env("DESTDIR", folder.at("at"))).status, 0);
    assert!(files.iter().all(|file| !at.join(file).exists()));
}

/// What is put somewhere by the script, with a command and archives that are nothing of the kind.
fn put(folder: &Folder, words: &[&str]) -> Said {
    fs::create_dir_all(folder.at("archives")).unwrap();
    ["vault_c", "drives_c", "surveys_c", "records_c"].iter().for_each(|name| folder.write(&format!("archives/lib{name}.a"), b""));
    folder.write("vault", b"#!/bin/sh\necho 'Its proofs were checked where it was built.'\n");
    fs::set_permissions(folder.at("vault"), Permissions::from_mode(0o755)).unwrap();
    let mut command = Command::new(root().join("install"));
    said(command.args(words).env_remove("DESTDIR").env("BUILT", folder.at("vault")).env("ARCHIVES", folder.at("archives")))
}

/// All below a folder.
fn below(folder: &Path) -> Vec<String> {
    let listed = said(Command::new("find").arg(".").current_dir(folder));
    let mut lines: Vec<String> = listed.out.lines().map(String::from).collect();
    lines.sort();
    lines
}

/// What is taken away leaves what was there, empty folders too, and none that was made for it.
#[test]
fn folders_that_were_made_are_taken_away() {
    let folder = Folder::new();
    fs::create_dir_all(folder.at("at/share/man")).unwrap();
    fs::create_dir_all(folder.at("at/share/fish/vendor_completions.d")).unwrap();
    fs::create_dir_all(folder.at("at/lib")).unwrap();
    folder.write("at/lib/other", b"");
    let (before, at) = (below(&folder.at("at")), folder.at("at").display().to_string());
    // Installed twice, as an update is.
    for _ in 0..2 {
        let done = put(&folder, &[&at]);
        assert!(done.status == 0 && folder.at("at/share/man/man1/vault.1").is_file(), "{done:?}");
    }
    assert_eq!(put(&folder, &["--remove", &at]).status, 0);
    assert_eq!(below(&folder.at("at")), before);
    // A prefix that wasn't there, with what stands above it; and one in which something else was put meanwhile.
    let deep = folder.at("new/deep/prefix").display().to_string();
    assert_eq!((put(&folder, &[&deep]).status, put(&folder, &["--remove", &deep]).status), (0, 0));
    assert!(!folder.at("new").exists());
    assert_eq!(put(&folder, &[&deep]).status, 0);
    folder.write("new/deep/prefix/share/zsh/mine", b"");
    assert_eq!(put(&folder, &["--remove", &deep]).status, 0);
    assert_eq!(
        below(&folder.at("new")),
        [".", "./deep", "./deep/prefix", "./deep/prefix/share", "./deep/prefix/share/zsh", "./deep/prefix/share/zsh/mine"]
    );
    // What isn't there is taken away already.
    assert_eq!(put(&folder, &["--remove", &folder.at("none").display().to_string()]).status, 0);
}

#[test]
fn installing_says_how_it_is_done() {
    let script = || Command::new(root().join("install"));
    for word in ["--help", "-h"] {
        let help = said(script().arg(word));
        assert!(help.status == 0 && help.error.is_empty(), "{help:?}");
        for line in ["./install [PREFIX]", "./install --remove [PREFIX]", "DESTDIR", "/usr/local", "BUILT", "ARCHIVES"] {
            assert!(help.out.contains(line), "{line} {help:?}");
        }
    }
    for words in [&["relative"][..], &["--prefix=/usr"], &["/usr", "more"], &["--remove", "relative"]] {
        let wrong = said(script().args(words));
        assert!(wrong.status == 64 && wrong.error.contains("./install --help"), "{words:?} {wrong:?}");
    }
}

/// What isn't proved, or isn't known to be, isn't installed.
#[test]
fn proved_archives_alone_are_installed() {
    let folder = Folder::new();
    fs::create_dir_all(folder.at("archives")).unwrap();
    let tried = |says: &str| {
        folder.write("vault", format!("#!/bin/sh\necho '{says}'\n").as_bytes());
        fs::set_permissions(folder.at("vault"), Permissions::from_mode(0o755)).unwrap();
        let mut command = Command::new(root().join("install"));
        said(command.env("DESTDIR", folder.at("at")).env("BUILT", folder.at("vault")).env("ARCHIVES", folder.at("archives")))
    };
    for says in ["vault 0.2.0", "Its proofs were not checked where it was built", "whether their proofs were checked is not known"] {
        let run = tried(says);
        assert!(run.status == 65 && run.error.contains("not known to be proved") && !folder.at("at").exists(), "{says} {run:?}");
    }
    folder.write("archives/NOT-PROVED", b"");
    assert_eq!(tried("Its proofs were checked where it was built.").status, 65);
    // With all as it should be, it fails for the archives that aren't there.
    fs::remove_file(folder.at("archives/NOT-PROVED")).unwrap();
    let run = tried("Its proofs were checked where it was built.");
    assert!(run.status == 1 && folder.at("at/usr/local/bin/vault").exists(), "{run:?}");
}

/// The lines for the compiler that README.md has under the example, as they stand.
fn link_lines(readme: &str) -> Vec<&str> {
    readme.lines().filter_map(|line| line.strip_prefix("    ")).filter(|line| line.starts_with("cc cue.c ")).collect()
}

/// README.md has it, with its lines for the compiler, and it is compiled so.
#[test]
fn the_example_in_c_runs() {
    let source = fs::read_to_string(root().join("packaging/example.c")).unwrap();
    let readme = fs::read_to_string(root().join("README.md")).unwrap();
    assert!(readme.contains(source.trim_end()), "README.md has another example in C than packaging/example.c");
    let Some(cc) = tool("cc") else {
        return left_out("the example in C", "cc");
    };
    if !is_proved("the example in C") {
        return;
    }
    let folder = Folder::new();
    let at = installed(&folder);
    folder.write("show.img", &show());
    folder.write("cue.c", source.as_bytes());
    fs::create_dir(folder.at("target")).unwrap();
    symlink(root().join("include").canonicalize().unwrap(), folder.at("include")).unwrap();
    symlink(archives().canonicalize().unwrap(), folder.at("target/staticlib")).unwrap();
    let lines = link_lines(&readme);
    assert_eq!(lines.len(), 2, "{lines:?}");
    for line in lines {
        if line.contains("pkg-config") && tool("pkg-config").is_none() {
            left_out("the example in C as an installed one", "pkg-config");
            continue;
        }
        let mut build = Command::new("sh");
        let strict = format!("{line}\n{} -std=c11 -Wall -Wextra -Werror -Iinclude -fsyntax-only cue.c", cc.display());
        build.args(["-ec", &strict]).env("PKG_CONFIG_PATH", at.join("lib/pkgconfig"));
        // What is installed into a folder is not where it says that it is.
        build.env("PKG_CONFIG_SYSROOT_DIR", folder.at("at")).current_dir(&folder.0);
        let built = said(&mut build);
        assert_eq!(built.status, 0, "{line} {built:?}");
        let run = said(Command::new(folder.at("cue")).args(["show.img", "SHOW/10.1a"]).current_dir(&folder.0));
        assert!(run.status == 0 && run.out.starts_with("cue 10.1a\n") && run.out.len() == 54 && run.error.is_empty(), "{run:?}");
        fs::remove_file(folder.at("cue")).unwrap();
    }
}

/// Where the archives are that this was built with, proved or not.
fn linked() -> PathBuf {
    let version = said(Command::new(env!("CARGO_BIN_EXE_vault")).arg("--version"));
    if version.out.contains("were not checked") { root().join("target/unproved") } else { archives() }
}

/// An example of packaging/, compiled in a folder by itself.
fn compiled(folder: &Folder, name: &str) {
    let mut cc = Command::new("cc");
    cc.args(["-std=c11", "-Wall", "-Wextra", "-Werror", "-pedantic", "-I"]).arg(root().join("include"));
    cc.arg(root().join("packaging").join(format!("{name}.c"))).arg("-L").arg(linked());
    let done = said(cc.args(["-lvault_c", "-ldrives_c", "-o"]).arg(folder.at(name)));
    assert_eq!(done.status, 0, "{name} {done:?}");
}

/// What each gives of the show, of a file of 3 MiB, and of what isn't there.
#[test]
fn the_examples_in_c_give_files_of_any_length() {
    if tool("cc").is_none() {
        return left_out("the examples in C", "cc");
    }
    let (folder, long) = (Folder::new(), noise(3 << 20));
    folder.write("show.img", &show());
    folder.write("long.img", &strandlodge::write(&[("LONG", &long)]).unwrap());
    folder.write("cut.img", &show()[..9000]);
    let none = ["show.img", "SHOW/12", "No volume, or no such path\n", "3"];
    let not_there = ["cut.img", "SHOW/9", "A sector that was asked for is not completely inside the image\n", "1"];
    let below = ["show.img", "SHOW/9/deeper", "No volume, or no such path\n", "3"];
    for name in ["example", "window", "lookup"] {
        compiled(&folder, name);
        let ran = |image: &str, path: &str| said(Command::new(folder.at(name)).args([image, path]).current_dir(&folder.0));
        for [image, path, says, status] in [none, not_there, below] {
            let run = ran(image, path);
            assert_eq!(
                (run.status.to_string().as_str(), run.out.as_str(), run.error.as_str()),
                (status, "", says),
                "{name} {image} {path}"
            );
        }
        assert_eq!(said(&mut Command::new(folder.at(name))).status, 66);
        if name != "lookup" {
            assert!(ran("long.img", "LONG").bytes == long && ran("show.img", "SHOW/10.1a").out.starts_with("cue 10.1a\n"), "{name}");
        }
    }
    let found = |image: &str, path: &str| said(Command::new(folder.at("lookup")).args([image, path]).current_dir(&folder.0)).out;
    assert_eq!(found("show.img", "SHOW/10.1a"), "file in block 9, partition 5: 8 sectors\n");
    assert_eq!(found("show.img", "/SHOW/"), "directory in block 4, partition 5: 7 sectors\n");
    assert_eq!(found("show.img", ""), "directory in block 3, partition 5: 6 sectors\n");
    assert_eq!(found("long.img", "LONG"), "file in block 16, partition 0: 10 sectors\n");
}

/// An example in Rust, which `cargo test` builds beside the command; none where this test was built by itself.
fn example(name: &str) -> Option<PathBuf> {
    let built = Path::new(env!("CARGO_BIN_EXE_vault")).with_file_name("examples").join(name);
    if !built.exists() {
        left_out("an example in Rust", name);
        return None;
    }
    Some(built)
}

#[test]
fn the_examples_in_rust_run() {
    let (Some(cue), Some(drive), Some(stage)) = (example("cue"), example("drive"), example("stage")) else { return };
    let folder = Folder::new();
    folder.write("show.img", &show());
    fs::create_dir(folder.at("to")).unwrap();
    let ran = |program: &Path, words: &[&str]| said(Command::new(program).args(words).current_dir(&folder.0));
    let run = ran(&cue, &["show.img", "SHOW/10.1a"]);
    assert!(run.status == 0 && run.out.starts_with("cue 10.1a\n") && run.error.is_empty(), "{run:?}");
    let run = ran(&cue, &["show.img", "SHOW/12"]);
    let says = "there is nothing named \"12\" on SHOW 1\nno volume, or no such path (3)\n";
    assert_eq!((run.status, run.error.as_str()), (1, says));
    let run = ran(&cue, &["none.img", "9"]);
    assert!(run.status == 1 && run.error.ends_with("(os error 2) (1)\n"), "{run:?}");
    let run = ran(&drive, &["show.img", "SHOW", "to"]);
    assert_eq!((run.status, run.out.as_str()), (0, "\"9\": 27 bytes\n\"10.1A\": 57 bytes\n\"10.1a\": 54 bytes\n\"11\": 16 bytes\n"));
    assert!(fs::read(folder.at("to/10.1a")).unwrap().starts_with(b"cue 10.1a\n"));
    assert_eq!(ran(&drive, &["show.img", "SHOW", "to"]).status, 1);
    let run = ran(&stage, &["new.img", "to/9", "to/11"]);
    assert_eq!((run.status, run.out.as_str()), (0, "9: 27 bytes, read back\n11: 16 bytes, read back\n"));
    assert_eq!(ran(&stage, &["new.img", "to/9"]).status, 1);
    assert!([&cue, &drive, &stage].iter().all(|program| ran(program, &[]).status == 64));
}

/// Every option that the command takes is in the man page, and in the completions.
#[test]
fn options_are_told_of() {
    let of = |name: &str| fs::read_to_string(root().join("packaging").join(name)).unwrap();
    let args = include_str!("../src/bin/vault/args.rs");
    let begin = args.find("const OPTIONS").unwrap();
    let table = &args[begin..begin + args[begin..].find("];").unwrap()];
    let mut options: Vec<&str> = table.lines().filter_map(|line| line.trim().strip_prefix("(\"")?.split('"').next()).collect();
    options.extend(["--help", "--version", "--sectors", "--highest", "--checked", "--maps"]);
    assert!(options.len() > 18, "{options:?}");
    let (man, bash, zsh, fish) = (of("vault.1").replace('\\', ""), of("vault.bash"), of("_vault"), of("vault.fish"));
    for option in options {
        let (long, short) = (option.strip_prefix("--"), option.strip_prefix('-'));
        let fished = long.map_or_else(|| format!("-s {}", short.unwrap()), |long| format!("-l {long}"));
        assert!(man.contains(option) && bash.contains(option) && zsh.contains(option) && fish.contains(&fished), "{option}");
    }
    for command in ["label", "info", "ls", "tree", "cat", "get", "stat", "probe", "check", "survey", "compare", "make", "sample", "help"] {
        assert!([&man, &bash, &zsh, &fish].iter().all(|text| text.contains(command)), "{command}");
    }
    if let Some(bash) = tool("bash") {
        assert_eq!(said(Command::new(bash).arg("-n").arg(root().join("packaging/vault.bash"))).status, 0);
    }
    if let Some(man) = tool("man") {
        let shown = said(
            Command::new(man)
                .args(["--warnings", "-l"])
                .arg(root().join("packaging/vault.1"))
                .env("MANWIDTH", "80")
                .env("LC_ALL", "C.UTF-8"),
        );
        assert!(shown.status == 0 && shown.error.is_empty() && shown.out.contains("EXIT STATUS"), "{shown:?}");
    }
}

/// A tree in which all is built: the script, and a command that only says that it ran.
fn built() -> Folder {
    let folder = Folder::new();
    for name in [
        "crates",
        "target/staticlib",
        "target/unproved",
        "strandlodge/src",
        "target/command/proved",
        "target/command/unproved",
        "strandlodge-sys/src",
    ] {
        fs::create_dir_all(folder.at(name)).unwrap();
    }
    for name in [
        "crates/a.rt",
        "strandlodge/src/a.rs",
        "strandlodge/Cargo.toml",
        "strandlodge/build.rs",
        "Cargo.toml",
        "Cargo.lock",
        "strandlodge-sys/src/a.rs",
        "strandlodge-sys/Cargo.toml",
        "strandlodge-sys/build.rs",
    ] {
        folder.write(name, b"");
    }
    fs::copy(root().join("vault"), folder.at("vault")).unwrap();
    for (archives, kind) in [("staticlib", "proved"), ("unproved", "unproved")] {
        for crate_name in ["vault_c", "drives_c", "surveys_c", "records_c"] {
            folder.write(&format!("target/{archives}/lib{crate_name}.a"), b"");
        }
        let command = format!("target/command/{kind}/vault");
        folder.write(&command, format!("#!/bin/sh\necho {kind} ran \"$@\"\n").as_bytes());
        fs::set_permissions(folder.at(&command), Permissions::from_mode(0o755)).unwrap();
        age(&folder, &command, "now + 10 seconds");
    }
    folder
}

fn age(folder: &Folder, name: &str, time: &str) {
    assert!(Command::new("touch").args(["-d", time]).arg(folder.at(name)).status().unwrap().success());
}

/// The script with neither cargo nor rt at hand.
fn alone(folder: &Folder, words: &[&str]) -> Said {
    said(alone_with(folder, words).env_remove("VAULT_ARCHIVE"))
}

fn alone_with(folder: &Folder, words: &[&str]) -> Command {
    fs::create_dir_all(folder.at("bin")).unwrap();
    for name in ["sh", "dirname", "readlink", "uname", "find", "head", "touch", "mkdir", "cat"] {
        let _ = std::os::unix::fs::symlink(tool(name).unwrap(), folder.at("bin").join(name));
    }
    let mut command = Command::new(folder.at("vault"));
    command.args(words).env("PATH", folder.at("bin")).current_dir(&folder.0);
    command
}

#[test]
fn what_is_built_is_not_built_again() {
    let folder = built();
    let run = alone(&folder, &["ls", "a b"]);
    assert_eq!((run.status, run.out.as_str(), run.error.as_str()), (0, "proved ran ls a b\n", ""));
    assert_eq!(alone(&folder, &["--build"]).out, "");
    for newer in [
        "strandlodge/src/a.rs",
        "strandlodge/Cargo.toml",
        "strandlodge/build.rs",
        "strandlodge-sys/src/a.rs",
        "target/staticlib/libvault_c.a",
    ] {
        age(&folder, newer, "now + 20 seconds");
        let run = alone(&folder, &["ls"]);
        assert!(run.status == 69 && run.error.contains("cargo is missing"), "{newer} {run:?}");
        age(&folder, newer, "2001-01-01");
    }
    // Built with the archives of another folder, however old these are.
    let run = said(alone_with(&folder, &["ls"]).env("VAULT_ARCHIVE", folder.at("strandlodge")));
    assert!(run.status == 69 && run.error.contains("cargo is missing"), "{run:?}");
}

/// Proved archives that are missing, or older than a source, are not taken for such; nor are those that aren't proved taken for proved.
#[test]
fn archives_of_the_one_kind_are_not_taken_for_the_other() {
    let folder = built();
    assert_eq!(alone(&folder, &["--prove"]).out, "vault: the command uses archives whose proofs were checked on this machine\n");
    let needs_rt = |words: &[&str]| {
        let run = alone(&folder, words);
        assert!(run.status == 69 && run.error.contains("rt is missing"), "{run:?}");
    };
    age(&folder, "target/staticlib/libdrives_c.a", "2001-01-01");
    assert_eq!(alone(&folder, &["ls"]).out, "unproved ran ls\n");
    needs_rt(&["--prove"]);
    fs::remove_file(folder.at("target/staticlib/libdrives_c.a")).unwrap();
    assert_eq!(alone(&folder, &["ls"]).out, "unproved ran ls\n");
    age(&folder, "crates/a.rt", "now + 20 seconds");
    needs_rt(&["ls"]);
    let run = said(alone_with(&folder, &["--prove"]).env("VAULT_ARCHIVE", folder.at("target/staticlib")));
    assert_eq!(run.status, 64, "{run:?}");
}

/// A checkout is moved with what is built in it.
#[test]
fn a_moved_checkout_is_not_built_again() {
    let mut folder = built();
    let elsewhere = Folder::new();
    fs::rename(&folder.0, elsewhere.at("moved")).unwrap();
    folder.0 = elsewhere.at("moved");
    let run = alone(&folder, &["ls"]);
    assert_eq!((run.status, run.out.as_str(), run.error.as_str()), (0, "proved ran ls\n", ""));
}

/// The whole way of someone who has just come to it: packaging/first-hour has its steps.
#[test]
fn a_stranger_s_first_hour() {
    if !is_proved("the first hour") {
        return;
    }
    let mut script = Command::new(root().join("packaging/first-hour"));
    script.env("BUILT", env!("CARGO_BIN_EXE_vault")).env("ARCHIVES", archives().canonicalize().unwrap());
    let done = said(script.env_remove("DESTDIR"));
    assert!(done.status == 0 && done.out.ends_with("\nfirst hour: done\n"), "{done:?}");
    let steps = ["what is built is installed", "the sample show", "a cue by its very name", "all files of a disc"];
    assert!(steps.iter().all(|step| done.out.contains(&format!("first hour: {step}\n"))), "{done:?}");
    let _ = done.out.lines().filter(|line| line.contains("left out")).try_for_each(|line| writeln!(io::stderr(), "{line}"));
}

/// The version and the licence are said where they are looked for.
#[test]
fn the_version_has_its_changes() {
    let changes = fs::read_to_string(root().join("CHANGELOG.md")).unwrap();
    let first = changes.lines().find_map(|line| line.strip_prefix("## ")).unwrap();
    assert_eq!(first, env!("CARGO_PKG_VERSION"));
    assert_eq!(env!("CARGO_PKG_LICENSE"), "MIT");
    let readme = fs::read_to_string(root().join("README.md")).unwrap();
    assert!(readme.contains("MIT") && readme.contains("NOTICE"));
}

/// What bash offers behind some words.
fn completed(folder: &Folder, bash: &Path, words: &[&str]) -> Vec<String> {
    let script = format!(
        "source '{}'; COMP_WORDS=(\"$@\"); COMP_CWORD=$(($# - 1)); _vault; printf '%s\\n' \"${{COMPREPLY[@]}}\"",
        root().join("packaging/vault.bash").display()
    );
    let path = format!("{}:{}", Path::new(env!("CARGO_BIN_EXE_vault")).parent().unwrap().display(), std::env::var("PATH").unwrap());
    let mut command = Command::new(bash);
    command.args(["-c", &script, "bash"]).args(words).current_dir(&folder.0).env("PATH", path);
    let said = said(&mut command);
    assert_eq!(said.status, 0, "{said:?}");
    said.out.lines().map(String::from).collect()
}

#[test]
fn bash_completes_what_stands_on_a_disc() {
    let Some(bash) = tool("bash") else {
        return left_out("completion", "bash");
    };
    let folder = Folder::new();
    folder.write("show.img", &show());
    assert_eq!(completed(&folder, &bash, &["vault", "la"]), ["label"]);
    assert_eq!(completed(&folder, &bash, &["vault", "cat", "sh"]), ["show.img"]);
    assert_eq!(completed(&folder, &bash, &["vault", "cat", "show.img", "SH"]), ["SHOW/"]);
    assert_eq!(completed(&folder, &bash, &["vault", "cat", "--as-written", "show.img", "SHOW/10"]), ["SHOW/10.1A", "SHOW/10.1a"]);
    assert_eq!(completed(&folder, &bash, &["vault", "ls", "--as"]), ["--as-written", "--as-original"]);
    assert_eq!(completed(&folder, &bash, &["vault", "survey", "--r"]), ["--rows"]);
    assert_eq!(completed(&folder, &bash, &["vault", "help", "la"]), ["label"]);
    assert_eq!(completed(&folder, &bash, &["vault", "make", "--fo"]), ["--force"]);
}

/// The documentation is made without a warning.
#[test]
fn the_documentation_is_clean() {
    let folder = Folder::new();
    let mut command = Command::new(env!("CARGO"));
    command.args(["doc", "--offline", "--no-deps", "--manifest-path"]).arg(root().join("strandlodge/Cargo.toml"));
    let made = said(command.arg("--target-dir").arg(folder.at("target")).env("RUSTDOCFLAGS", "-D warnings"));
    assert!(made.status == 0 && !made.error.contains("warning"), "{made:?}");
}
