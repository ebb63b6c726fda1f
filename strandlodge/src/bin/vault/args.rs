//! What the command line asks for.

use crate::failure::Failure;
use crate::folder::Tree;
use crate::help;
use crate::limit::Limit;
use crate::names::{self, shown};
use crate::runs::Span;
use crate::steps::Rule;
use crate::style::Style;
use crate::survey;
use crate::tree::{Bounds, Form};
use crate::wanted::{Icb, Wanted};
use std::ffi::{OsStr, OsString};
use std::os::unix::ffi::{OsStrExt, OsStringExt};
use strandlodge::{How, Matching};

#[derive(Debug, PartialEq, Eq)]
pub enum Command {
    /// Of all, or of one command.
    Help(Option<String>),
    Version,
    Tour,
    Sample {
        file: OsString,
        force: bool,
    },
    Make {
        image: OsString,
        files: Vec<OsString>,
        force: bool,
    },
    Survey {
        images: Vec<OsString>,
        limit: Limit,
        form: survey::Form,
    },
    /// The sum of rows of surveys.
    Total {
        rows: Vec<OsString>,
        form: survey::Form,
    },
    Compare {
        images: [OsString; 2],
        limit: Limit,
    },
    Ask {
        image: OsString,
        question: Question,
    },
}

impl Command {
    /// One file is asked for.
    fn is_of_one_file(&self) -> bool {
        matches!(self, Command::Ask { question: Question::Cat { .. } | Question::Get { .. }, .. })
    }

    /// It can be answered a sector at a time.
    fn can_drive(&self) -> bool {
        let whole =
            |question: &Question| matches!(question, Question::GetAll { .. } | Question::Probe | Question::Check { .. } | Question::Info);
        matches!(self, Command::Ask { question, .. } if !whole(question))
    }
}

/// What is asked of an image.
#[derive(Debug, PartialEq, Eq)]
pub enum Question {
    Label,
    Info,
    Ls { wanted: Wanted },
    Tree { wanted: Wanted, form: Form, bounds: Bounds },
    Cat { wanted: Wanted },
    Get { wanted: Wanted, file: OsString },
    GetAll { paths: Vec<Vec<u8>>, folder: OsString },
    GetTree { tree: Tree, folder: OsString },
    Stat { wanted: Wanted },
    Descriptors,
    Probe,
    Check { limit: Limit },
}

#[derive(Debug, PartialEq, Eq)]
pub struct Args {
    pub command: Command,
    pub sectors: bool,
    /// The image is copied, and not mapped.
    pub copy: bool,
    /// It is read a sector at a time, and neither mapped nor copied.
    pub drive: bool,
    /// The choices on opening.
    pub how: How,
    /// How names on a path are matched.
    pub matching: Rule,
    /// So many seconds are waited for what isn't there yet.
    pub wait: Option<u32>,
    /// How entries are printed.
    pub style: Style,
    /// What of a file is wanted.
    pub span: Span,
}

/// The commands that look at what a disc holds.
const PATHS: &[&str] = &["ls", "tree", "cat", "get", "stat"];
const FOR_PATHS: &str = "--as-written, --unambiguous and --as-original work only with ls, tree, cat, get and stat";

/// The commands that walk a disc.
const WALKS: &[&str] = &["tree", "ls", "get", "check", "survey", "compare"];
const FOR_WALKS: &str = "--limit and --no-limit work only with tree, ls -R, get -r, check, survey and compare";

/// Options that aren't for every command, those that they are for, and what is said else.
const OPTIONS: [(&str, &[&str], &str); 25] = [
    ("--as-original", PATHS, FOR_PATHS),
    ("--as-written", PATHS, FOR_PATHS),
    ("--unambiguous", PATHS, FOR_PATHS),
    ("--raw", PATHS, "--raw works only with ls, tree, cat, get and stat"),
    ("--icb", PATHS, "--icb works only with ls, tree, cat, get and stat, in place of PATH"),
    ("-o", &["get"], "-o works only with get"),
    ("-r", &["get"], "-r works only with get"),
    ("--portable", &["get"], FOR_TREES),
    ("--sums", &["get"], FOR_TREES),
    ("-R", &["ls"], "-R works only with ls"),
    ("-i", &["ls"], "-i works only with ls"),
    ("-0", &["ls"], "-0 works only with ls"),
    ("-l", &["ls"], "-l works only with ls"),
    (
        "--json",
        &["ls", "tree", "stat", "info", "check", "survey", "compare"],
        "--json works only with ls, tree, stat, info, check, survey and compare",
    ),
    ("--rows", &["survey"], "--rows works only with survey"),
    ("--total", &["survey"], "--total works only with survey"),
    ("--levels", &["tree", "ls"], "--levels works only with tree and ls -R"),
    ("--limit", WALKS, FOR_WALKS),
    ("--no-limit", WALKS, FOR_WALKS),
    ("--force", &["make", "sample"], "--force works only with make and sample, where it replaces an existing file"),
    ("--wait", &["cat", "get"], FOR_ONE_FILE),
    ("--from", &["cat", "get"], FOR_A_PART),
    ("--bytes", &["cat", "get"], FOR_A_PART),
    ("--drive", &["label", "ls", "tree", "cat", "get", "stat"], FOR_DRIVES),
    (
        "--copy",
        &["label", "info", "ls", "tree", "cat", "get", "stat", "probe", "check", "survey", "compare"],
        "--copy works only with commands that read an IMAGE",
    ),
];
const FOR_TREES: &str = "--portable and --sums work only with get -r";
const FOR_ONE_FILE: &str = "--wait works only with cat, and with get without -o";
const FOR_A_PART: &str = "--from and --bytes work only with cat, and with get without -o";
const FOR_DRIVES: &str = "--drive works only with label, ls, tree, cat, stat and get; get -o also needs -r";

/// What stands on the line beside words.
#[derive(Default)]
struct Options {
    /// Those of the table that were given.
    given: Vec<&'static str>,
    sectors: bool,
    help: bool,
    version: bool,
    short_version: bool,
    how: How,
    icb: Option<Icb>,
    folder: Option<OsString>,
    sums: Option<OsString>,
    levels: Option<usize>,
    limit: Option<u64>,
    wait: Option<u32>,
    span: Span,
}

impl Options {
    fn has(&self, option: &str) -> bool {
        self.given.contains(&option)
    }

    /// Takes an option, and what belongs to it.
    fn take(&mut self, word: &OsStr, rest: &mut impl Iterator<Item = OsString>) -> Result<(), Failure> {
        let known = OPTIONS.iter().map(|(name, ..)| *name).find(|name| word == *name);
        self.given.extend(known);
        match word.as_bytes() {
            b"--sectors" => self.sectors = true,
            b"--highest" => self.how.highest = true,
            b"--checked" => self.how.checked = true,
            b"--maps" => self.how.maps = true,
            b"--help" | b"-h" => self.help = true,
            b"--version" => self.version = true,
            b"-V" => self.short_version = true,
            b"-o" => self.folder = Some(rest.next().ok_or_else(|| Failure::usage("-o needs a folder: -o TO"))?),
            b"--sums" => self.sums = Some(rest.next().ok_or_else(|| Failure::usage("--sums needs a file: --sums FILE"))?),
            b"--icb" => self.icb = Some(icb(rest.next())?),
            b"--levels" => {
                self.levels = Some(number(rest.next(), "--levels needs a number from 1 to 16", Bounds::MOST_LEVELS as u64)? as usize)
            }
            b"--limit" => self.limit = Some(number(rest.next(), "--limit needs a number of sectors, 1 or more", u64::MAX)?),
            b"--wait" => self.wait = Some(seconds(rest.next())?),
            b"--from" => self.span.from = bytes(rest.next(), "--from needs the number of a byte; the first byte is 0")?,
            b"--bytes" => self.span.bytes = Some(bytes(rest.next(), "--bytes needs a number of bytes")?),
            _ if known.is_some() => {}
            other => return Err(Failure::usage(format!("unknown option {}", shown(other)))),
        }
        Ok(())
    }

    /// Takes a word that begins with a dash: `--levels 2`, `--levels=2`, or letters that stand together, as in `-Rl`.
    fn take_word(&mut self, word: OsString, rest: &mut impl Iterator<Item = OsString>) -> Result<(), Failure> {
        let bytes = word.as_bytes();
        let equals = bytes.iter().position(|byte| *byte == b'=');
        match (bytes, equals) {
            ([b'-', b'-', ..], Some(at)) => {
                let (option, value) = (OsStr::from_bytes(&bytes[..at]), OsStr::from_bytes(&bytes[at + 1..]).to_os_string());
                let mut value = [value].into_iter();
                self.take(option, &mut value)?;
                let left = value.next().map(|_| Failure::usage(format!("{} takes no value", shown(&bytes[..at]))));
                left.map_or(Ok(()), Err)
            }
            ([b'-', letter, _, ..], _) if *letter != b'-' => self.take_letters(&bytes[1..], rest),
            _ => self.take(&word, rest),
        }
    }

    /// What stands behind an o is the folder.
    fn take_letters(&mut self, letters: &[u8], rest: &mut impl Iterator<Item = OsString>) -> Result<(), Failure> {
        let (at, folder) = match letters.iter().position(|letter| *letter == b'o') {
            Some(at) if at + 1 < letters.len() => (at, Some(OsStr::from_bytes(&letters[at + 1..]).to_os_string())),
            at => (at.unwrap_or(letters.len()), None),
        };
        let known = |letter: &u8| OPTIONS.iter().any(|(name, ..)| name.as_bytes() == [b'-', *letter]) || b"hV".contains(letter);
        if !letters[..at].iter().all(known) {
            return Err(Failure::usage(format!("unknown option -{}", shown(letters))));
        }
        letters[..at].iter().try_for_each(|letter| self.take(OsStr::from_bytes(&[b'-', *letter]), rest))?;
        match folder {
            Some(folder) => self.take(OsStr::new("-o"), &mut [folder].into_iter()),
            None if at < letters.len() => self.take(OsStr::new("-o"), rest),
            None => Ok(()),
        }
    }

    /// Fails where there is one of another command.
    fn see(&self, name: Option<&OsStr>) -> Result<(), Failure> {
        for (option, commands, says) in OPTIONS {
            let is_for = name.is_some_and(|name| commands.iter().any(|command| name == *command));
            if self.has(option) && !is_for {
                return Err(Failure::usage(says));
            }
        }
        let deep = name.is_some_and(|name| name == "tree") || self.has("-R") || self.has("-r");
        if self.levels.is_some() && !deep {
            return Err(Failure::usage("--levels works only with tree and ls -R"));
        }
        if self.limit()? != Limit::Usual && !deep && name.is_some_and(|name| name == "ls" || name == "get") {
            return Err(Failure::usage(FOR_WALKS));
        }
        if self.has("-r") && (self.levels.is_some() || self.folder.is_none()) {
            return Err(Failure::usage("get -r needs a folder (-o TO) and takes no --levels"));
        }
        if !self.has("-r") && (self.has("--portable") || self.has("--sums")) {
            return Err(Failure::usage(FOR_TREES));
        }
        if self.icb.is_some() && (self.folder.is_some() || self.has("--raw") || self.matching()? != Rule::default()) {
            return Err(Failure::usage(
                "--icb replaces PATH: it can't be combined with -o, --raw, --as-written, --unambiguous or --as-original",
            ));
        }
        if self.has("--json") && (self.has("-0") || self.has("-i")) {
            return Err(Failure::usage("--json includes the names and the ICBs: it can't be combined with -0 or -i"));
        }
        Ok(())
    }

    fn limit(&self) -> Result<Limit, Failure> {
        match (self.limit, self.has("--no-limit")) {
            (None, false) => Ok(Limit::Usual),
            (Some(most), false) => Ok(Limit::Most(most)),
            (None, true) => Ok(Limit::None),
            (Some(_), true) => Err(Failure::usage("use either --limit or --no-limit, not both")),
        }
    }

    fn bounds(&self) -> Result<Bounds, Failure> {
        Ok(Bounds { levels: self.levels.unwrap_or(Bounds::MOST_LEVELS), limit: self.limit()? })
    }

    fn matching(&self) -> Result<Rule, Failure> {
        let choices =
            [("--as-original", Matching::CaseIgnored), ("--as-written", Matching::AsWritten), ("--unambiguous", Matching::Unambiguous)];
        let given: Vec<Matching> = choices.into_iter().filter(|(option, _)| self.has(option)).map(|(_, choice)| choice).collect();
        match given[..] {
            [] => Ok(Rule::Safe),
            [choice] => Ok(Rule::Call(choice)),
            _ => Err(Failure::usage("use only one of --as-written, --unambiguous and --as-original")),
        }
    }

    /// A path as it was typed.
    fn path(&self, word: OsString) -> Result<Vec<u8>, Failure> {
        let bytes = word.into_vec();
        if self.has("--raw") { Ok(bytes) } else { names::read(&bytes).map_err(Failure::usage) }
    }

    /// What is asked for, where there may be no path.
    fn wanted(&self, words: &mut impl Iterator<Item = OsString>) -> Result<Option<Wanted>, Failure> {
        match self.icb {
            Some(icb) => Ok(Some(Wanted::Icb(icb))),
            None => words.next().map(|word| self.path(word).map(Wanted::Path)).transpose(),
        }
    }
}

/// What is wrong with a line is said with the command whose help has it, where there is one.
pub fn parse(given: impl IntoIterator<Item = OsString>) -> Result<Args, Failure> {
    let given: Vec<OsString> = given.into_iter().collect();
    let command = given.iter().filter_map(|word| word.to_str()).find(|word| help::has(word)).map(String::from);
    let words = read(given);
    let first = words.as_ref().ok().and_then(|(_, words)| words.first()).map(|word| word.to_string_lossy().into_owned());
    let about = first.or(command).filter(|name| help::has(name));
    words.and_then(|(options, words)| args(options, words)).map_err(|failure| failure.of_command(about.as_deref()))
}

/// The options, and the words beside them.
fn read(given: Vec<OsString>) -> Result<(Options, Vec<OsString>), Failure> {
    let (mut options, mut words) = (Options::default(), Vec::new());
    let mut given = given.into_iter();
    while let Some(word) = given.next() {
        match word.as_bytes() {
            b"--" => words.extend(given.by_ref()),
            [b'-', _, ..] => options.take_word(word, &mut given)?,
            _ => words.push(word),
        }
    }
    Ok((options, words))
}

/// What is asked for beside the options, or in their place: help, or the version.
fn asked(words: Vec<OsString>, options: &Options) -> Result<Command, Failure> {
    let text = |word: &OsString| word.to_string_lossy().into_owned();
    let is_help = words.first().is_some_and(|word| word == "help");
    if options.help || is_help {
        return Ok(Command::Help(words.get(usize::from(is_help)).map(text)));
    }
    if options.version || options.short_version && words.is_empty() {
        return Ok(Command::Version);
    }
    match words.first().filter(|_| options.short_version) {
        Some(name) => Err(Failure::usage(format!("-V prints the version of vault; it is not an option of {}", shown(name.as_bytes())))),
        None => command(words, options),
    }
}

fn args(options: Options, words: Vec<OsString>) -> Result<Args, Failure> {
    let command = asked(words, &options)?;
    let style =
        Style { is_json: options.has("--json"), is_raw: options.has("-0"), has_icbs: options.has("-i"), is_long: options.has("-l") };
    let (sectors, copy, drive) = (options.sectors, options.has("--copy"), options.has("--drive"));
    let (how, wait, span) = (options.how, options.wait, options.span);
    if matches!(command, Command::Help(_) | Command::Version) {
        return Ok(Args { command, sectors, copy, drive, how, matching: Rule::default(), wait, style, span });
    }
    if wait.is_some() && !command.is_of_one_file() {
        return Err(Failure::usage(FOR_ONE_FILE));
    }
    let is_part = options.has("--from") || options.has("--bytes");
    if is_part && !command.is_of_one_file() {
        return Err(Failure::usage(FOR_A_PART));
    }
    if is_part && drive {
        return Err(Failure::usage("--drive reads a file from start to end: it can't be combined with --from or --bytes"));
    }
    let args = Args { command, sectors, copy, drive, how, matching: options.matching()?, wait, style, span };
    if drive {
        see_drive(&args)?;
    }
    Ok(args)
}

/// Fails where a drive is asked for something that needs the image whole.
fn see_drive(args: &Args) -> Result<(), Failure> {
    if !args.command.can_drive() {
        return Err(Failure::usage(FOR_DRIVES));
    }
    if args.copy || args.wait.is_some() {
        return Err(Failure::usage("--drive reads what is there now, one sector at a time: it can't be combined with --copy or --wait"));
    }
    if args.how != How::default() {
        return Err(Failure::usage(
            "--drive opens a disc by the original's rules: it can't be combined with --highest, --maps or --checked",
        ));
    }
    Ok(())
}

fn seconds(word: Option<OsString>) -> Result<u32, Failure> {
    let number = word.as_ref().and_then(|word| word.to_str()).and_then(|word| word.parse().ok());
    number.ok_or_else(|| Failure::usage("--wait needs a number of seconds"))
}

fn bytes(word: Option<OsString>, needs: &str) -> Result<u64, Failure> {
    let number = word.as_ref().and_then(|word| word.to_str()).and_then(|word| word.parse().ok());
    number.ok_or_else(|| Failure::usage(needs))
}

fn icb(word: Option<OsString>) -> Result<Icb, Failure> {
    let icb = word.as_ref().and_then(|word| word.to_str()).and_then(Icb::parse);
    icb.ok_or_else(|| Failure::usage("--icb needs BLOCK or BLOCK:REF, as ls -i shows them"))
}

/// A number of 1 to `most`.
fn number(word: Option<OsString>, needs: &str, most: u64) -> Result<u64, Failure> {
    let number = word.and_then(|word| word.to_str()?.parse().ok()).filter(|n| (1..=most).contains(n));
    number.ok_or_else(|| Failure::usage(needs))
}

fn command(words: Vec<OsString>, options: &Options) -> Result<Command, Failure> {
    let mut words = words.into_iter();
    let name = words.next();
    options.see(name.as_deref())?;
    let Some(name) = name else {
        return Ok(Command::Tour);
    };
    let command = match name.as_bytes() {
        b"sample" => Command::Sample { file: take(&mut words, &name, "FILE")?, force: options.has("--force") },
        b"make" => {
            let (image, first) = (take(&mut words, &name, "IMAGE")?, take(&mut words, &name, "FILE")?);
            Command::Make { image, files: [first].into_iter().chain(words.by_ref()).collect(), force: options.has("--force") }
        }
        b"survey" => {
            let first = take(&mut words, &name, if options.has("--total") { "ROWS" } else { "IMAGE" })?;
            surveyed([first].into_iter().chain(words.by_ref()).collect(), options)?
        }
        b"compare" => {
            let images = [take(&mut words, &name, "two IMAGEs")?, take(&mut words, &name, "two IMAGEs")?];
            Command::Compare { images, limit: options.limit()? }
        }
        b"label" | b"info" | b"ls" | b"tree" | b"cat" | b"get" | b"stat" | b"probe" | b"check" => {
            let image = take(&mut words, &name, "IMAGE")?;
            Command::Ask { image, question: question(&name, &mut words, options)? }
        }
        other => return Err(Failure::usage(format!("unknown command {}", shown(other)))),
    };
    match words.next() {
        None => Ok(command),
        Some(word) => Err(Failure::usage(format!("{} takes no more arguments, but {} follows", name.display(), shown(word.as_bytes())))),
    }
}

/// A survey of images, or the sum of rows.
fn surveyed(files: Vec<OsString>, options: &Options) -> Result<Command, Failure> {
    let form = match (options.has("--json"), options.has("--rows")) {
        (true, true) => return Err(Failure::usage("--rows writes lines for --total: it can't be combined with --json")),
        (true, false) => survey::Form::Document,
        (false, true) => survey::Form::Rows,
        (false, false) => survey::Form::Table,
    };
    if !options.has("--total") {
        return Ok(Command::Survey { images: files, limit: options.limit()?, form });
    }
    let is_bare = options.limit()? == Limit::Usual && options.how == How::default() && !options.has("--copy") && !options.sectors;
    if !is_bare || form == survey::Form::Rows {
        return Err(Failure::usage("--total adds up rows and reads no image: --json is the only option it takes"));
    }
    Ok(Command::Total { rows: files, form })
}

fn question(name: &OsStr, words: &mut impl Iterator<Item = OsString>, options: &Options) -> Result<Question, Failure> {
    let root = || Wanted::Path(Vec::new());
    Ok(match name.as_bytes() {
        b"label" => Question::Label,
        b"info" => Question::Info,
        b"probe" => Question::Probe,
        b"check" => Question::Check { limit: options.limit()? },
        b"tree" | b"ls" if name == "tree" || options.has("-R") => {
            let (wanted, form) = (options.wanted(words)?.unwrap_or_else(root), if name == "tree" { Form::Drawn } else { Form::Paths });
            Question::Tree { wanted, form, bounds: options.bounds()? }
        }
        b"ls" => Question::Ls { wanted: options.wanted(words)?.unwrap_or_else(root) },
        b"stat" => options.wanted(words)?.map_or(Question::Descriptors, |wanted| Question::Stat { wanted }),
        b"get" if options.folder.is_some() => many(name, words, options)?,
        _ => {
            let wanted = options.wanted(words)?.ok_or_else(|| needs(name, "PATH"))?;
            if name == "cat" { Question::Cat { wanted } } else { Question::Get { wanted, file: take(words, name, "FILE")? } }
        }
    })
}

/// What goes to a folder.
fn many(name: &OsStr, words: &mut impl Iterator<Item = OsString>, options: &Options) -> Result<Question, Failure> {
    let (folder, paths) =
        (options.folder.clone().unwrap_or_default(), words.map(|word| options.path(word)).collect::<Result<Vec<_>, _>>()?);
    if options.has("-r") {
        let (limit, is_portable, sums) = (options.limit()?, options.has("--portable"), options.sums.clone());
        return Ok(Question::GetTree { tree: Tree { paths, limit, is_portable, sums }, folder });
    }
    if paths.is_empty() { Err(needs(name, "PATH")) } else { Ok(Question::GetAll { paths, folder }) }
}

fn needs(name: &OsStr, what: &str) -> Failure {
    Failure::usage(format!("{} needs {what}", name.display()))
}

fn take(words: &mut impl Iterator<Item = OsString>, name: &OsStr, what: &str) -> Result<OsString, Failure> {
    words.next().ok_or_else(|| needs(name, what))
}

#[cfg(test)]
mod tests {
    use super::*;

    fn parsed(line: &str) -> Result<Args, Failure> {
        parse(line.split_whitespace().map(OsString::from))
    }

    #[test]
    fn options_stand_anywhere() {
        let label = |image: &str| Command::Ask { image: image.into(), question: Question::Label };
        let (how, matching, wait) = (How::default(), Rule::Safe, None);
        let asked = |sectors, copy| Args {
            command: label("a"),
            sectors,
            copy,
            drive: false,
            how,
            matching,
            wait,
            style: Style::default(),
            span: Span::default(),
        };
        assert_eq!(parsed("label a").unwrap(), asked(false, false));
        assert_eq!(parsed("--sectors label a").unwrap(), asked(true, false));
        assert_eq!(parsed("label a --sectors").unwrap(), asked(true, false));
        assert_eq!(parsed("label --copy a").unwrap(), asked(false, true));
        assert_eq!(parsed("--copy label a --sectors").unwrap(), asked(true, true));
        for (words, how) in [
            ("label --highest a", How { highest: true, ..How::default() }),
            ("label a --checked", How { checked: true, ..How::default() }),
            ("label --maps a", How { maps: true, ..How::default() }),
            ("--checked label --highest a", How { highest: true, checked: true, maps: false }),
            ("--maps label --checked a --highest", How { highest: true, checked: true, maps: true }),
        ] {
            assert_eq!(parsed(words).unwrap(), Args { how, ..asked(false, false) });
        }
        assert_eq!(parsed("label a --help").unwrap().command, Command::Help(Some("label".to_string())));
        assert_eq!(parsed("-h").unwrap().command, Command::Help(None));
        for line in ["--version", "-V", "ls --version"] {
            assert_eq!(parsed(line).unwrap().command, Command::Version, "{line}");
        }
        for (line, of) in [("help", None), ("help ls", Some("ls")), ("ls -h", Some("ls")), ("-h", None)] {
            assert_eq!(parsed(line).unwrap().command, Command::Help(of.map(String::from)), "{line}");
        }
        assert_eq!(parsed("label -- --help").unwrap().command, label("--help"));
        assert_eq!(parsed("").unwrap().command, Command::Tour);
    }

    #[test]
    fn a_folder_takes_many_paths() {
        for (line, paths) in
            [("get a -o d b", &["b"][..]), ("-o d get a b c", &["b", "c"]), ("get a b c d e -o d -- -o", &["b", "c", "d", "e", "-o"])]
        {
            let question = Question::GetAll { paths: paths.iter().map(|path| path.as_bytes().to_vec()).collect(), folder: "d".into() };
            assert_eq!(parsed(line).unwrap().command, Command::Ask { image: "a".into(), question }, "{line}");
        }
    }

    #[test]
    fn a_vault_is_made_of_any_number_of_files() {
        for (line, files, force) in [
            ("make a b", &["b"][..], false),
            ("make --force a b", &["b"], true),
            ("make a b c -- --copy --force", &["b", "c", "--copy", "--force"], false),
        ] {
            let files = files.iter().map(OsString::from).collect();
            assert_eq!(parsed(line).unwrap().command, Command::Make { image: "a".into(), files, force }, "{line}");
        }
        assert_eq!(parsed("sample a --force").unwrap().command, Command::Sample { file: "a".into(), force: true });
    }

    #[test]
    fn a_survey_is_of_any_number_of_images() {
        for (line, images, limit, form) in [
            ("survey a", &["a"][..], Limit::Usual, survey::Form::Table),
            ("survey a b --json --limit 7", &["a", "b"], Limit::Most(7), survey::Form::Document),
            ("--maps survey --no-limit a -- --copy", &["a", "--copy"], Limit::None, survey::Form::Table),
            ("survey --rows a --limit=7", &["a"], Limit::Most(7), survey::Form::Rows),
        ] {
            let images = images.iter().map(OsString::from).collect();
            assert_eq!(parsed(line).unwrap().command, Command::Survey { images, limit, form }, "{line}");
        }
        for (line, form) in [("survey --total a b", survey::Form::Table), ("--json survey a b --total", survey::Form::Document)] {
            assert_eq!(parsed(line).unwrap().command, Command::Total { rows: vec!["a".into(), "b".into()], form }, "{line}");
        }
    }

    #[test]
    fn a_check_has_a_limit() {
        for (line, limit) in [("check a", Limit::Usual), ("check a --limit 1", Limit::Most(1)), ("--no-limit check a", Limit::None)] {
            let question = Question::Check { limit };
            assert_eq!(parsed(line).unwrap().command, Command::Ask { image: "a".into(), question }, "{line}");
        }
    }

    #[test]
    fn waiting_is_for_one_file() {
        for (line, wait) in
            [("cat a b", None), ("cat --wait 5 a b", Some(5)), ("get a b c --wait 0", Some(0)), ("--help --wait 7", Some(7))]
        {
            assert_eq!(parsed(line).unwrap().wait, wait, "{line}");
        }
    }

    #[test]
    fn a_part_of_one_file_may_be_wanted() {
        for (line, from, bytes) in [
            ("cat a b", 0, None),
            ("cat a b --from 5", 5, None),
            ("get a b c --bytes 0", 0, Some(0)),
            ("--from 0 cat --bytes 18446744073709551615 a b", 0, Some(u64::MAX)),
        ] {
            assert_eq!(parsed(line).unwrap().span, Span { from, bytes }, "{line}");
        }
    }

    #[test]
    fn a_drive_is_read_a_sector_at_a_time() {
        for line in ["label a --drive", "ls --drive a", "--drive tree a b", "cat a b --drive", "get a b c --drive", "stat a --drive"] {
            let args = parsed(line).unwrap();
            assert!(args.drive && !args.copy, "{line}");
        }
        assert!(!parsed("stat a -- --drive").unwrap().drive);
    }

    #[test]
    fn a_tree_has_bounds() {
        let usual = Bounds::default();
        for (line, path, form, bounds) in [
            ("tree a", "", Form::Drawn, usual),
            ("ls -R a", "", Form::Paths, usual),
            ("tree a b --levels 1", "b", Form::Drawn, Bounds { levels: 1, ..usual }),
            ("--limit 7 ls a b -R", "b", Form::Paths, Bounds { limit: Limit::Most(7), ..usual }),
            ("tree a --no-limit --levels 2", "", Form::Drawn, Bounds { levels: 2, limit: Limit::None }),
            ("tree --levels 16 --limit 18446744073709551615 a", "", Form::Drawn, Bounds { levels: 16, limit: Limit::Most(u64::MAX) }),
        ] {
            let question = Question::Tree { wanted: Wanted::Path(path.into()), form, bounds };
            assert_eq!(parsed(line).unwrap().command, Command::Ask { image: "a".into(), question }, "{line}");
        }
    }

    #[test]
    fn a_path_is_read_as_ls_writes_it() {
        let path = |line: &str| match parsed(line).unwrap().command {
            Command::Ask { question: Question::Cat { wanted: Wanted::Path(path) }, .. } => path,
            other => panic!("{other:?}"),
        };
        assert_eq!(path("cat a b\\u{1b}\\\\\\xff"), b"b\x1b\\\xff");
        assert_eq!(path("cat a b\\u{1b} --raw"), b"b\\u{1b}");
    }

    #[test]
    fn an_icb_stands_for_a_path() {
        let icb = |word| Wanted::Icb(Icb::parse(word).unwrap());
        for (line, question) in [
            ("cat a --icb 7", Question::Cat { wanted: icb("7") }),
            ("get --icb 7:5 a b", Question::Get { wanted: icb("7:5"), file: "b".into() }),
            ("ls a --icb 7:5", Question::Ls { wanted: icb("7:5") }),
            ("stat a --icb 0", Question::Stat { wanted: icb("0") }),
        ] {
            assert_eq!(parsed(line).unwrap().command, Command::Ask { image: "a".into(), question }, "{line}");
        }
    }

    #[test]
    fn all_of_a_disc_goes_to_a_folder() {
        for (line, paths, limit) in [
            ("get -r a -o d", &[][..], Limit::Usual),
            ("get a -o d -r b c --limit 7", &["b", "c"], Limit::Most(7)),
            ("get a -o d -r --drive --no-limit", &[], Limit::None),
        ] {
            let paths = paths.iter().map(|path| path.as_bytes().to_vec()).collect();
            let tree = Tree { paths, limit, is_portable: false, sums: None };
            let question = Question::GetTree { tree, folder: "d".into() };
            assert_eq!(parsed(line).unwrap().command, Command::Ask { image: "a".into(), question }, "{line}");
        }
    }

    #[test]
    fn entries_have_a_style() {
        let style = |is_json, is_raw, has_icbs| Style { is_json, is_raw, has_icbs, is_long: false };
        for (line, style) in [
            ("ls a", style(false, false, false)),
            ("ls a -0 -i", style(false, true, true)),
            ("ls -R -i a", style(false, false, true)),
            ("--json check a", style(true, false, false)),
            ("ls -l --json a", Style { is_long: true, ..style(true, false, false) }),
            ("ls a -R -l", Style { is_long: true, ..style(false, false, false) }),
        ] {
            assert_eq!(parsed(line).unwrap().style, style, "{line}");
        }
    }

    /// `-Rl`, `--levels=2` and `-oTO`.
    #[test]
    fn options_are_taken_as_they_are_typed() {
        for (line, plain) in [
            ("ls -Rl a", "ls -R -l a"),
            ("ls -l0i a", "ls -l -0 -i a"),
            ("tree --levels=2 a", "tree --levels 2 a"),
            ("ls -Rl a --levels=2 --limit=7", "ls -R -l --levels 2 --limit 7 a"),
            ("get -ro d a", "get -r -o d a"),
            ("get -rod a", "get -r -o d a"),
            ("get a -oro b", "get a -o ro b"),
            ("cat a b --wait=5 --from=0 --bytes=3", "cat a b --wait 5 --from 0 --bytes 3"),
            ("cat a --icb=7:5", "cat a --icb 7:5"),
        ] {
            assert_eq!(parsed(line).unwrap(), parsed(plain).unwrap(), "{line}");
        }
    }

    #[test]
    fn what_is_wrong_is_said_with_the_command_s_help() {
        let says = |line: &str| parsed(line).unwrap_err().says.unwrap();
        for line in ["tree a --levels 17", "tree --levels x a", "tree --levls=2 a", "--levels=0 tree a", "tree", "-V tree a", "tree -Rx a"]
        {
            assert!(says(line).ends_with(" (see `vault tree --help`)"), "{line} {}", says(line));
        }
        for line in ["lable a", "--levls", "-x", "--limit 7"] {
            assert!(says(line).ends_with(" (see `vault --help`)"), "{line} {}", says(line));
        }
    }

    #[test]
    fn matching_is_for_paths() {
        for (line, matching) in [
            ("ls a", Rule::Safe),
            ("ls a --as-written", Rule::Call(Matching::AsWritten)),
            ("--as-written cat a b --as-written", Rule::Call(Matching::AsWritten)),
            ("get --unambiguous a b c", Rule::Call(Matching::Unambiguous)),
            ("stat a b --unambiguous", Rule::Call(Matching::Unambiguous)),
            ("stat a b --as-original", Rule::Call(Matching::CaseIgnored)),
            ("stat a -- --unambiguous", Rule::Safe),
        ] {
            assert_eq!(parsed(line).unwrap().matching, matching, "{line}");
        }
        assert_eq!(parsed("--help --as-written").unwrap().command, Command::Help(None));
    }

    #[test]
    fn wrong_words_are_usage() {
        for line in [
            "lable a",
            "make -V NAME a b",
            "ls -V",
            "ls -Rx a",
            "ls -R=2 a",
            "ls --json=yes a",
            "ls --nothing=2 a",
            "tree a --levels=",
            "cat a b\\",
            "cat a b\\n",
            "cat a b\\u{2f}c",
            "cat a b --icb 7",
            "cat a --icb",
            "cat a --icb x",
            "cat a --icb 7 --as-written",
            "get a --icb 7",
            "get a -o d --icb 7",
            "label a --icb 7",
            "label a --raw",
            "check a --as-written",
            "tree a -0",
            "tree a -i",
            "tree a -l",
            "cat a b --json",
            "ls a --json -0",
            "get a b c -r",
            "get -r a b",
            "get -r a -o d --levels 3",
            "get -r a -o d --wait 3",
            "get a -o d b --limit 3",
            "info",
            "info a b",
            "info a --drive",
            "make a b --copy",
            "label",
            "label a b",
            "ls",
            "ls a b c",
            "tree",
            "tree a b c",
            "tree a -R",
            "tree a --levels",
            "tree a --levels 0",
            "tree a --levels 17",
            "tree a --levels x",
            "tree a --limit 0",
            "tree a --limit -1",
            "tree a --limit 18446744073709551616",
            "ls a --levels 1",
            "ls a --limit 1",
            "cat a b -R",
            "stat a --limit 1",
            "ls a --no-limit",
            "get a b c --no-limit",
            "cat a b --limit 1",
            "check a --limit 0",
            "check a --levels 2",
            "survey a --limit",
            "survey a --limit x",
            "survey a --limit 7 --no-limit",
            "tree a --no-limit --limit 7",
            "--no-limit",
            "-R",
            "cat a",
            "get a b",
            "get a b c d",
            "get a -o",
            "get a -o d",
            "get -o d",
            "cat a b -o d",
            "-o d",
            "stat",
            "stat a b c",
            "probe",
            "check",
            "check a b",
            "survey",
            "survey --json",
            "survey --total",
            "survey --total a --rows",
            "survey --total a --limit 7",
            "survey --total a --maps",
            "survey --total a --copy",
            "survey --rows a --json",
            "ls a --rows",
            "check a --total",
            "survey a --drive",
            "survey a --as-written",
            "survey a --wait 5",
            "survey a -R",
            "sample",
            "make",
            "make a",
            "make --force a",
            "get a b c --force",
            "--force",
            "make a b --as-written",
            "make a b --wait 1",
            "make a b -o c",
            "-x",
            "--sector",
            "--copies",
            "--check ls a",
            "--map ls a",
            "label a -v",
            "--as-writen ls a",
            "--as-written --unambiguous ls a",
            "--as-written --as-original ls a",
            "--as-original label a",
            "--as-written label a",
            "probe a --unambiguous",
            "sample a --as-written",
            "--unambiguous",
            "cat a b --wait",
            "cat a b --wait x",
            "cat a b --wait -1",
            "cat a b --wait 1.5",
            "cat a b --wait 4294967296",
            "ls a --wait 5",
            "label a --wait 5",
            "get a -o d b --wait 5",
            "sample a --wait 5",
            "--wait 5",
            "ls a --from 1",
            "label a --bytes 1",
            "cat a b --from",
            "cat a b --from -1",
            "cat a b --from 1k",
            "cat a b --bytes x",
            "cat a b --bytes 18446744073709551616",
            "cat a b --from 0 --drive",
            "get a b c --drive --bytes 1",
            "get a b -o d --from 0",
            "get -r a -o d --bytes 1",
            "--drive",
            "--drives ls a",
            "probe a --drive",
            "check a --drive",
            "sample a --drive",
            "get a -o d b --drive",
            "cat a b --drive --copy",
            "cat a b --drive --wait 5",
            "ls a --drive --highest",
            "ls a --drive --maps",
            "ls a --drive --checked",
        ] {
            assert_eq!(parsed(line).unwrap_err().status, crate::failure::USAGE, "{line}");
        }
    }
}
