//! Every command that README.md and strandlodge/README.md show with what it prints (`$ ..`) is run, and prints that.

mod common;

use std::fs;
use std::path::Path;
use std::process::Command;

use common::command::{Folder, Said};
use common::{SECTOR, harm};

/// A command of a document, and the lines under it.
struct Shown {
    line: usize,
    command: String,
    prints: Vec<String>,
}

/// The commands of a document: in a block of text, or indented by four.
fn commands(text: &str) -> Vec<Shown> {
    let mut shown: Vec<Shown> = Vec::new();
    let mut indent = None;
    for (number, line) in text.lines().enumerate() {
        let bare = line.trim_start();
        if let Some(command) = bare.strip_prefix("$ ") {
            shown.push(Shown { line: number + 1, command: command.to_string(), prints: Vec::new() });
            indent = Some(line.len() - bare.len());
        } else if line.starts_with("```") || line.is_empty() {
            indent = None;
        } else if let Some(indent) = indent {
            shown.last_mut().unwrap().prints.push(line[indent..].to_string());
        }
    }
    shown
}

/// What the examples name: cues in files, and images with and without a fault.
fn stage(folder: &Folder) {
    let vault = |words: &[&str]| {
        let said = folder.vault(words);
        assert_eq!(said.status, 0, "{words:?} {said:?}");
    };
    vault(&["sample", "show.img"]);
    for cue in ["9", "11", "10.1A", "10.1a"] {
        vault(&["get", "--as-written", "show.img", &format!("SHOW/{cue}"), cue]);
    }
    for name in ["one", "cues"] {
        fs::create_dir(folder.at(name)).unwrap();
    }
    let image = fs::read(folder.at("show.img")).unwrap();
    let mut scratched = image.clone();
    scratched[293 * SECTOR + 60] ^= 1;
    folder.write("scratched.img", &scratched);
    folder.write("cut.img", &image[..299 * SECTOR]);
    folder.write("harm.img", &harm(14).0);
    vault(&["make", "friday.img", "9", "11"]);
    folder.write("12", b"cue 12\n");
    fs::rename(folder.at("11"), folder.at("friday's")).unwrap();
    folder.write("11", b"cue 11\nblackout in 3\n");
    vault(&["make", "saturday.img", "9", "11", "12"]);
    fs::rename(folder.at("friday's"), folder.at("11")).unwrap();
}

/// A command in the staged folder, by the shell. The examples of `survey` have a written image beside the others.
fn run(folder: &Folder, command: &str) -> Said {
    if command.starts_with("vault survey") {
        assert_eq!(folder.vault(&["make", "new.img", "9", "11"]).status, 0);
    }
    let built = Path::new(env!("CARGO_BIN_EXE_vault")).parent().unwrap();
    let path = format!("{}:{}", built.display(), std::env::var("PATH").unwrap());
    let said = Said::of(Command::new("sh").args(["-c", command]).env("PATH", path).current_dir(&folder.0).output().unwrap());
    if command.starts_with("vault survey") {
        fs::remove_file(folder.at("new.img")).unwrap();
    }
    said
}

/// Runs a document's commands in their order. Lines on standard error, which start with the command's name, may stand among the others.
fn holds(document: &str) -> usize {
    let path = Path::new(env!("CARGO_MANIFEST_DIR")).join("..").join(document);
    let folder = Folder::new();
    stage(&folder);
    let shown = commands(&fs::read_to_string(path).unwrap());
    let mut wrong = String::new();
    for one in &shown {
        let command = one.command.replace("./vault", "vault");
        if command.starts_with("vault sample") {
            fs::remove_file(folder.at("show.img")).unwrap();
        }
        let said = run(&folder, &command);
        let (error, out): (Vec<&String>, Vec<&String>) = one.prints.iter().partition(|line| line.starts_with("vault: "));
        let lines = |text: &str| text.lines().map(str::to_string).collect::<Vec<_>>();
        if command == "vault --version" {
            // Its last line tells whether the proofs were checked.
            assert_eq!(&lines(&said.out)[0], out[0]);
            continue;
        }
        if lines(&said.out).iter().ne(out) || lines(&said.error).iter().ne(error) {
            wrong += &format!("{document}:{}: {}\n{}{}", one.line, one.command, said.out, said.error);
        }
    }
    assert_eq!(wrong, "");
    shown.len()
}

#[test]
fn the_commands_of_the_readme_print_what_it_shows() {
    assert_eq!(holds("README.md"), 3);
}

#[test]
fn the_commands_of_the_crate_s_readme_print_what_it_shows() {
    assert_eq!(holds("strandlodge/README.md"), 24);
}
