//! The help: all commands on one screen, and one screen for each command.

use crate::failure::Failure;
use crate::names::shown;
use std::io::Write;
use strandlodge_sys::vault;

pub const HELP: &str = "\
vault: look into a UDF disc. IMAGE is a file or a drive, and is only read.
  vault label IMAGE            print the volume's name
  vault info IMAGE             print label, revision, partitions, free space
  vault ls IMAGE [PATH]        list a directory; with -R, everything below it
  vault tree IMAGE [PATH]      the same as ls -R, drawn as a tree
  vault cat IMAGE PATH         print a file; PATH is names joined by slashes
  vault get IMAGE PATH FILE    copy a file to FILE, which is replaced
  vault get IMAGE -o TO PATH.. copy files to folder TO; get -r: a whole disc
  vault stat IMAGE [PATH]      print ICB, kind, sizes, extents; or descriptors
  vault probe IMAGE            say whether it has a recognition sequence
  vault check IMAGE            list descriptors that are misplaced or damaged
  vault survey IMAGE..         count files, bytes, extents and refusals
  vault compare IMAGE IMAGE    list paths on one only, and files that differ
  vault make IMAGE FILE..      write an image of up to 64 files
  vault sample FILE            write a sample show; vault alone gives a tour
  --as-written, --unambiguous, --as-original   how the names in PATH match
  --icb BLOCK[:REF]      use this ICB in place of PATH; ls -i shows it
  --checked, --highest, --maps   how the disc is opened; else as the original
  --copy, --drive   read to memory first, or sector by sector (default: map it)
  --json, --sectors, --limit N   print JSON; report sectors; limit sectors
For one command, run vault help COMMAND. For the version, run vault --version.
Status: 0 done, 1 to 16 refused with that number, 64 usage, 65 fault found or
probe says no, 66 no image, 67 not all read, 68 limit, 70 unknown, 74 output.
";

/// On paths; for each command that takes one.
const PATHS: &str = "
PATH is names joined by slashes. An exact name wins; otherwise the only match
with ASCII case ignored is used, with a note. Several are refused (9).
  --as-written       match names byte for byte only
  --unambiguous      refuse a name that several entries match, ignoring case
  --as-original      ignore case and take the first match, as the original does
  --raw              take PATH literally: no \\\\, \\u{..} or \\x.. as in ls
  --icb BLOCK[:REF]  use the entry in that block instead of PATH; see ls -i
";

/// On the image; for each command that reads one.
const IMAGES: &str = "
  --checked  refuse a descriptor that fails its CRC check
  --highest  of several descriptors, use the one with the highest number
  --maps     find partitions through the volume's partition maps
  --copy     read the image into memory first; a mapped image must not change
  --sectors  report how many sectors each call asked for
";

const DRIVES: &str = "  --drive    read it sector by sector, without mapping it\n";

/// A command, its help, and whether it takes paths, reads an image, and works with --drive.
const COMMANDS: [(&str, &str, [bool; 3]); 14] = [
    ("label", "vault label IMAGE\nPrints the volume's name.\n", [false, true, true]),
    (
        "info",
        "vault info IMAGE\nPrints the volume's names, its UDF revision, partitions, maps, descriptors in\n\
         effect; and free space, files and directories where these are recorded.\n  --json     print JSON\n",
        [false, true, false],
    ),
    (
        "ls",
        "vault ls IMAGE [PATH]\nLists a directory, one entry per line. A directory's name ends in a slash.\n\
         \x20 -R         list everything below it, as paths; --levels, --limit: see tree\n\
         \x20 -i, -l     add the ICB, BLOCK:REF; add length, bytes read, extents\n\
         \x20 -0         print names as recorded, each followed by a zero byte\n  --json     print JSON\n",
        [true, true, true],
    ),
    (
        "tree",
        "vault tree IMAGE [PATH]\nDraws everything below a directory.\n\
         \x20 --levels N   go down N levels, 1 to 16 (default 16)\n\
         \x20 --limit N    ask for at most N sectors; each entry shown counts as one more\n\
         \x20              (default 500000, plus 4 for each sector of the image)\n\
         \x20 --no-limit   no limit\n  --json       print JSON\n",
        [true, true, true],
    ),
    (
        "cat",
        "vault cat IMAGE PATH\nWrites a file's bytes to standard output.\n\
         \x20 --from N, --bytes N  start at byte N, the first is 0; write at most N bytes\n\
         \x20 --wait N   wait up to N seconds while the image is copied, front to back\n",
        [true, true, true],
    ),
    ("get", GET, [true, true, true]),
    (
        "stat",
        "vault stat IMAGE [PATH]\nPrints the ICB of PATH, its kind, its length by its entry, the bytes that a\n\
         read gives, and its extents. Without PATH: the volume's descriptors and maps.\n  --json     print JSON\n",
        [true, true, true],
    ),
    (
        "probe",
        "vault probe IMAGE\nPrints yes if the image has a volume recognition sequence, otherwise no; the\n\
         status is 0 or 65. Opening a disc does not depend on it.\n  --copy     read the image into memory first\n",
        [false, false, false],
    ),
    (
        "check",
        "vault check IMAGE\nPrints each descriptor that is not where its tag says, or fails its CRC check\n\
         (status 65), and what can't be read (status 67).\n\
         \x20 --limit N  ask for at most N sectors\n\
         \x20            (default 500000, plus 4 for each sector of the image)\n\
         \x20 --no-limit no limit\n  --json     print JSON\n",
        [false, true, false],
    ),
    (
        "survey",
        "vault survey IMAGE..\nPrints a line of figures for each image, and one for all: files, directories,\n\
         bytes, extents, sectors that reading each file takes, the longest chain, and\n\
         files that can't be read, as NUMBER:FILES. Standard error says why an image\n\
         can't be surveyed.\n\
         \x20 --rows     print a row of numbers for each image, for --total\n\
         \x20 --total    the arguments are files of such rows: add them up\n\
         \x20 --limit N  ask for at most N sectors of each image (default 500000, plus 4\n\
         \x20            for each that it has). One that needs more is refused (16), and\n\
         \x20            the rest goes on\n  --no-limit no limit\n  --json     print JSON\n",
        [false, true, false],
    ),
    (
        "compare",
        "vault compare IMAGE IMAGE\nPrints the paths that only one image has, and the files whose bytes differ.\n\
         Status 0: there are none. 1: there are some. Any other: not everything could be\n\
         read; refusal 1 becomes 67 here.\n\
         \x20 --limit N  ask for at most N sectors of each image\n\
         \x20            (default 500000, plus 4 for each that it has)\n  --no-limit no limit\n  --json     print JSON\n",
        [false, true, false],
    ),
    (
        "make",
        "vault make IMAGE FILE..\nWrites an image of up to 64 files, each named by the last part of its path, and\n\
         prints how many sectors it has.\n  --force    replace IMAGE if it exists; otherwise it is left as it is\n",
        [false, false, false],
    ),
    (
        "sample",
        "vault sample FILE\nWrites the image of a sample show, the one of the tour. It is a complete UDF\n\
         1.02 disc, which other readers can read too.\n\
         \x20 --force    replace FILE if it exists; otherwise it is left as it is\n",
        [false, false, false],
    ),
    ("tour", "vault\nGives a short tour of a sample show.\n", [false, false, false]),
];

const GET: &str = "\
vault get IMAGE PATH FILE          copy a file to FILE, whole or not at all
vault get IMAGE -o TO PATH..       copy each file to its own name in folder TO
vault get -r IMAGE -o TO [PATH..]  copy all below each PATH, or the whole disc
  --from N, --bytes N, --wait N  for one file: as in cat
  --limit N, --no-limit  for -r: at most N sectors (500000 plus 4 per sector)
  --sums FILE  for -r: write sums for sha256sum -c
  --portable   for -r: write names that every file system accepts
A replaced FILE keeps its mode; -r follows no links; /dev/stdout is written to.
";

/// Whether there is such a command.
pub fn has(command: &str) -> bool {
    COMMANDS.iter().any(|(name, ..)| *name == command && *name != "tour")
}

/// The help of a command, where there is such a command.
fn of(command: &str) -> Option<String> {
    let (_, says, [paths, image, drive]) = COMMANDS.iter().find(|(name, ..)| *name == command)?;
    let part = |is: &bool, text: &'static str| if *is { text } else { "" };
    Some([says, part(paths, PATHS), part(image, IMAGES), part(drive, DRIVES)].concat())
}

pub fn print(command: Option<&str>, out: &mut impl Write) -> Result<(), Failure> {
    let text = match command {
        None => HELP.to_string(),
        Some(name) => of(name).ok_or_else(|| Failure::usage(format!("unknown command {}", shown(name.as_bytes()))))?,
    };
    out.write_all(text.as_bytes()).map_err(Failure::output)
}

/// What the build script was told of the archives' proofs. The script ./vault and ./install go by these words.
const PROOFS: &str = match env!("VAULT_PROOFS").as_bytes() {
    b"checked" => "Its proofs were checked where it was built.",
    b"unchecked" => "Its proofs were not checked where it was built: ./vault --prove checks them there.",
    _ => "It was built over archives from elsewhere: whether their proofs were checked is not known.",
};

pub fn version(out: &mut impl Write) -> Result<(), Failure> {
    let text = format!("vault {} (include/vault.h {})\n{PROOFS}\n", env!("CARGO_PKG_VERSION"), vault::VERSION);
    out.write_all(text.as_bytes()).map_err(Failure::output)
}

#[cfg(test)]
mod tests {
    use super::*;

    #[test]
    fn the_help_fits_a_screen() {
        let all = COMMANDS.iter().filter_map(|(name, ..)| of(name));
        for text in all.chain([HELP.to_string()]) {
            assert!(text.lines().count() < 24, "{text}");
            assert!(text.lines().all(|line| line.chars().count() < 80), "{text}");
        }
    }

    #[test]
    fn every_command_has_help() {
        let named = |line: &str| line.trim().strip_prefix("vault ").map(|rest| rest.split(' ').next().unwrap().to_string());
        let listed: Vec<String> = HELP.lines().filter(|line| line.starts_with("  vault")).filter_map(named).collect();
        assert!(listed.len() > 10 && listed.iter().all(|name| of(name).is_some()), "{listed:?}");
    }
}
