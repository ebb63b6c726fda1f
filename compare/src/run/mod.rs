//! The program, where the original is there.

mod aborts;
mod bench;
#[cfg(linked)]
mod bench_drives;
mod compare;
mod damage;
#[cfg(linked)]
mod direct;
mod expect;
mod given;
#[cfg(linked)]
mod lending;
mod list;
mod mapped;
mod original;
mod ours;
mod port;
mod prevailing;
mod queries;
mod raw;
mod raw_cases;
#[cfg(linked)]
mod raw_direct;
mod raw_expect;
mod raw_records;
mod shapes_bodies;
mod shapes_deleted;
mod shapes_directories;
mod shapes_files;
mod shapes_mapped;
mod shapes_matching;
mod shapes_opening;
mod shapes_prevailing;
mod shapes_steps;
mod shapes_trees;
#[cfg(linked)]
mod stepping;
mod steps;
mod stored;
mod surveys;
mod tally;
#[cfg(udfread)]
mod udfread;
mod volumes;
mod volumes_mapped;
mod ways;
mod wire;
#[cfg(linked)]
mod written;

#[cfg(linked)]
use common::linked;
use common::{bodies, calls, disc, random, records};
use std::path::Path;
use std::process::exit;
use strandlodge_sys::sparse;
use ways::Way;

const USAGE: &str = "usage: compare [--seconds N] [--seed S] [--first] [--port | --port=PROGRAM]
       compare --bench [--drives | --rows WORDS] [--port | --port=PROGRAM]
       compare --list FOLDER
       compare --stored FOLDER
       compare --written [--bench]
       compare --image FILE [--port | --port=PROGRAM]";

fn usage() -> ! {
    eprintln!("{USAGE}");
    exit(2);
}

/// What is to be done.
#[derive(Default)]
struct Options {
    seconds: Option<u64>,
    seed: Option<u64>,
    /// The first mismatch is enough.
    first: bool,
    port: bool,
    program: Option<String>,
    bench: bool,
    /// Of the benchmark only what is read a sector at a time.
    drives: bool,
    /// And only the rows with these words in their names.
    rows: Option<String>,
    list: Option<String>,
    stored: Option<String>,
    image: Option<String>,
    written: bool,
    child: bool,
}

fn options() -> Options {
    let mut o = Options::default();
    let mut words = std::env::args().skip(1);
    while let Some(word) = words.next() {
        let mut next = || words.next().unwrap_or_else(|| usage());
        let number = |word: String| Some(word.parse().unwrap_or_else(|_| usage()));
        match word.as_str() {
            "--seconds" => o.seconds = number(next()),
            "--seed" => o.seed = number(next()),
            "--first" => o.first = true,
            "--port" => o.port = true,
            "--bench" => o.bench = true,
            "--drives" => o.drives = true,
            "--rows" => o.rows = Some(next()),
            "--list" => o.list = Some(next()),
            "--stored" => o.stored = Some(next()),
            "--image" => o.image = Some(next()),
            "--written" => o.written = true,
            "--original-child" => o.child = true,
            _ => o.program = Some(word.strip_prefix("--port=").unwrap_or_else(|| usage()).to_string()),
        }
    }
    o
}

pub fn main() {
    let o = options();
    if o.child {
        return aborts::child().expect("the request is whole");
    }
    if let Some(folder) = o.list {
        return list::write(Path::new(&folder)).expect("the list is written");
    }
    if let Some(folder) = o.stored {
        return match stored::held(Path::new(&folder)).expect("the files are there, and whole") {
            Ok(what) => println!("compare: {folder}: {what}"),
            Err(what) => {
                eprintln!("compare: {folder}: {what}");
                exit(1);
            }
        };
    }
    if o.written {
        return written_vaults(o.bench);
    }
    let way = match &o.program {
        Some(program) => Way::Program(program),
        None if o.port => Way::Port,
        None => Way::Best,
    };
    if let Some(file) = &o.image {
        let image = std::fs::read(file).expect("the image can be read");
        return match given::held(ways::ours(way).as_mut(), &image).expect("our side answers") {
            Ok((queries, files)) => {
                println!("compare: {file}: {files} files and folders, {queries} queries, each answered as by the original")
            }
            Err(what) => {
                eprintln!("compare: {file}: {what}");
                exit(1);
            }
        };
    }
    if o.bench {
        let emulated = std::env::consts::ARCH != "x86_64" && o.program.is_none();
        #[cfg(linked)]
        let is_linked = matches!(way, Way::Best);
        if !o.drives {
            bench::run(ways::ours(way).as_mut(), emulated, o.rows.as_deref().unwrap_or("")).expect("our side answers");
        }
        #[cfg(linked)]
        if is_linked && o.rows.is_none() {
            bench_drives::run().expect("a file can be written");
        }
        return;
    }
    let (seconds, seed) = (o.seconds.unwrap_or(60), o.seed.unwrap_or(1));
    let enough = if o.first { 1 } else { 8 };
    let mut comparison = compare::Comparison::new(ways::ours(way), seed, enough);
    comparison.run(seconds);
    let tally = &comparison.tally;
    println!("{tally}, seed {seed}");
    let unreached = compare::unreached(tally);
    if !unreached.is_empty() {
        println!("never answered: {}", unreached.join(", "));
    }
    exit(if tally.mismatches > 0 { 1 } else { 0 });
}

/// Images that are written, if the archive is linked.
#[cfg(linked)]
fn written_vaults(bench: bool) {
    if bench {
        return written::speed();
    }
    match written::held().expect("our side answers") {
        Ok([vaults, files, queries]) => {
            let others = if cfg!(udfread) { "and libudfread" } else { "(libudfread isn't installed)" };
            println!(
                "compare: {vaults} vaults written, of {files} files, read by the original {others}; {queries} queries, each answered as by the original"
            )
        }
        Err(what) => {
            eprintln!("compare: a vault that was written: {what}");
            exit(1);
        }
    }
}

#[cfg(not(linked))]
fn written_vaults(_: bool) {
    println!("compare: vaults written: left out, the archive is x86-64 code");
}
