//! `vault`: look into a UDF disc from a shell, or make one.

mod args;
mod bar;
mod check;
mod commands;
mod compare;
mod disc;
mod drive;
mod failure;
mod file;
mod folder;
mod help;
mod image;
mod info;
mod json;
mod limit;
mod log;
mod make;
mod many;
mod map;
mod maps;
mod names;
mod records;
mod report;
mod runs;
mod safe;
mod signals;
mod sizes;
mod steps;
mod store;
mod style;
mod sums;
mod survey;
mod system;
mod tour;
mod tree;
mod wait;
mod walk;
mod wanted;

use args::{Args, Command, Question};
use commands::Manner;
use failure::Failure;
use image::Image;
use json::Json;
use log::{Log, say};
use std::io::{self, BufWriter, Write};
use std::process::ExitCode;
use survey::Taken;

fn main() -> ExitCode {
    match run() {
        Ok(()) => ExitCode::SUCCESS,
        Err(failure) => {
            failure.says.iter().for_each(|text| say(text));
            ExitCode::from(failure.status)
        }
    }
}

fn run() -> Result<(), Failure> {
    let args = args::parse(std::env::args_os().skip(1))?;
    let (mut out, mut log) = (Noted { to: BufWriter::new(io::stdout().lock()), any: false }, Log::default());
    let mut done = answer(&args, &mut out, &mut log);
    // What was printed is a document of its own, and says what it can of the refusal.
    if let Some(failure) = done.as_ref().err().filter(|failure| args.style.is_json && !out.any && failure.says.is_some()) {
        done = Json::Object(vec![("refused", failure.json())]).print(&mut out).and(done);
    }
    let done = done.and(out.flush().map_err(Failure::output));
    log.said().for_each(|text| say(&text));
    if args.sectors {
        say(&format!("sectors asked for: {}", log.sectors()));
    }
    done
}

/// A writer that notes whether anything was written.
struct Noted<W> {
    to: W,
    any: bool,
}

impl<W: Write> Write for Noted<W> {
    fn write(&mut self, bytes: &[u8]) -> io::Result<usize> {
        self.any = true;
        self.to.write(bytes)
    }

    fn flush(&mut self) -> io::Result<()> {
        self.to.flush()
    }
}

fn answer(args: &Args, out: &mut impl Write, log: &mut Log) -> Result<(), Failure> {
    match &args.command {
        Command::Help(command) => help::print(command.as_deref(), out),
        Command::Version => help::version(out),
        Command::Tour => tour::give(out),
        Command::Sample { file, force } => file::Target::fresh(file, *force, "")?.write(&tour::sample()?),
        Command::Make { image, files, force } => make::make(image, files, *force, out),
        Command::Survey { images, limit, form } => {
            survey::survey(images, Taken { how: args.how, copied: args.copy, limit: *limit }, *form, out, log)
        }
        Command::Total { rows, form } => survey::add_up(rows, *form, out),
        Command::Compare { images, limit } => {
            compare::compare(images, Taken { how: args.how, copied: args.copy, limit: *limit }, args.style.is_json, out, log)
        }
        Command::Ask { image, question } => {
            if let Question::Get { file, .. } = question {
                file::apart(image, file)?;
            }
            if let Question::GetAll { folder, .. } | Question::GetTree { folder, .. } = question {
                file::see_folder(folder)?;
            }
            let manner = Manner { how: args.how, matching: args.matching, style: args.style, span: args.span };
            if args.drive {
                return drive::ask(question, manner, image, out, log);
            }
            let mut ask = |shown: &[u8], log: &mut Log| commands::ask(question, manner, shown, image, out, log);
            match (args.wait, question) {
                (Some(seconds), Question::Cat { wanted } | Question::Get { wanted, .. }) => {
                    let missing = |shown: &[u8]| wait::missing(shown, args.how, args.matching, wanted);
                    wait::until(seconds, image, args.copy, missing, |shown| {
                        // What is told of is the last look.
                        *log = Log::default();
                        ask(shown, log)
                    })
                }
                _ => ask(&Image::open(image, args.copy)?, log),
            }
        }
    }
}
