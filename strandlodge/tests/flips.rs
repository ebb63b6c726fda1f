//! An image that another process, this one, writes to while the command looks at it. An answer may be that of no image; no run may end by a
//! signal. And the sample show with one bit turned over, which a check of bodies must see.

mod common;

use common::command::Folder;
use common::{SECTOR, TestDisc, crc, named, seal, short_ad, show};
use std::ffi::{c_int, c_void};
use std::fs::File;
use std::os::fd::AsRawFd;
use std::os::unix::process::ExitStatusExt;
use std::path::Path;
use std::process::Stdio;
use std::ptr;
use std::sync::atomic::Ordering::Relaxed;
use std::sync::atomic::{AtomicBool, AtomicU32};
use strandlodge::{Counted, How};

/// Does something while a thread writes one value and then the other over four bytes of a file, as fast as it can.
#[allow(unsafe_code)]
fn flipping<T>(file: &Path, at: usize, values: [u32; 2], work: impl FnOnce() -> T) -> T {
    const PROT_READ_WRITE: c_int = 3;
    const MAP_SHARED: c_int = 1;
    unsafe extern "C" {
        fn mmap(at: *mut c_void, length: usize, protection: c_int, flags: c_int, file: c_int, offset: i64) -> *mut c_void;
    }
    let file = File::options().read(true).write(true).open(file).unwrap();
    let length = file.metadata().unwrap().len() as usize;
    assert!(at.is_multiple_of(4) && at + 4 <= length);
    // SAFETY: a new map of the file's length, which stays for good; its bytes are touched by this store alone.
    let place = unsafe {
        let map = mmap(ptr::null_mut(), length, PROT_READ_WRITE, MAP_SHARED, file.as_raw_fd(), 0);
        assert!(map as isize != -1);
        AtomicU32::from_ptr(map.byte_add(at).cast())
    };
    let stop = AtomicBool::new(false);
    std::thread::scope(|scope| {
        scope.spawn(|| {
            while !stop.load(Relaxed) {
                values.iter().for_each(|value| place.store(*value, Relaxed));
            }
        });
        let done = work();
        stop.store(true, Relaxed);
        done
    })
}

/// A disc with the file `cat` and the directory `ls`, which are one: 231 extents, of which the first has 42 bytes, or 420,000. Gives the place
/// of that length. The entry's CRC is of its area too, where that is said, and then right for the smaller length.
fn with_flip(folder: &Folder, summed: bool) -> (usize, [u32; 2]) {
    let mut disc = TestDisc::new();
    let cues: Vec<Vec<u8>> = (0..10_000).map(|_| named("10", 3, false)).collect();
    let (one, all) = (cues[0].len(), cues.concat());
    let block = disc.lay(&all);
    let area = short_ad(one, block).repeat(231);
    let subject = disc.entry(0, &area, u64::MAX >> 1);
    let at = disc.0.len() - 2048 + 176;
    assert_eq!(disc.0[at..at + 8], short_ad(one, block));
    if summed {
        seal(&mut disc.0[at - 176..], 160 + area.len());
    }
    let root = disc.directory(&[named("cat", subject, false), named("ls", subject, true)]);
    disc.root(root);
    folder.write("disc.img", &disc.0);
    (at, [one as u32, all.len() as u32])
}

/// How many of so many runs ended by a signal, and by which.
fn ended_by_signal(runs: u32, words: &[&str], summed: bool) -> (u32, Vec<i32>) {
    let folder = Folder::new();
    let (at, values) = with_flip(&folder, summed);
    flipping(&folder.at("disc.img"), at, values, || {
        let mut signals = Vec::new();
        for _ in 0..runs {
            let ended = folder.command(words).stdout(Stdio::null()).stderr(Stdio::null()).status().unwrap();
            signals.extend(ended.signal());
        }
        let ended = signals.len() as u32;
        signals.sort();
        signals.dedup();
        (ended, signals)
    })
}

/// With an archive that leaves what it is lent when the image changes, runs end by a signal. With their counts:
///
///     cargo test --release --test flips -- --nocapture
///
/// VAULT_FLIP_RUNS is how many runs of each are made, 1,000 if nothing is said.
#[test]
fn a_mapped_image_that_changes_ends_no_run() {
    let runs = std::env::var("VAULT_FLIP_RUNS").map_or(1_000, |runs| runs.parse().unwrap());
    let counts = [["cat", "disc.img", "cat"], ["ls", "disc.img", "ls"]].map(|words| {
        let (ended, signals) = ended_by_signal(runs, &words, false);
        println!("vault {}: {runs} runs, {ended} ended by a signal {signals:?}", words[0]);
        ended
    });
    assert_eq!(counts, [0, 0]);
}

/// The same with bodies checked: a body that was right may be another when it is read. With the length under the CRC some runs are refused by it.
#[test]
fn a_mapped_image_that_changes_ends_no_checked_run() {
    let runs = std::env::var("VAULT_FLIP_RUNS").map_or(400, |runs| runs.parse().unwrap());
    for words in [["--checked", "cat", "disc.img", "cat"], ["--checked", "ls", "disc.img", "ls"]] {
        for summed in [false, true] {
            let (ended, signals) = ended_by_signal(runs, &words, summed);
            println!("vault --checked {}, summed {summed}: {runs} runs, {ended} ended by a signal {signals:?}", words[1]);
            assert_eq!(ended, 0);
        }
    }
}

/// The check reads a directory and asks for its extents in two looks. It prints a line for each identifier of this disc, so it is run less often.
#[test]
fn a_checked_image_that_changes_ends_no_run() {
    assert_eq!(ended_by_signal(40, &["check", "disc.img"], false), (0, vec![]));
}

/// A copy stands still.
#[test]
fn a_copied_image_that_changes_ends_no_run() {
    for words in [["--copy", "cat", "disc.img", "cat"], ["--copy", "ls", "disc.img", "ls"]] {
        assert_eq!(ended_by_signal(20, &words, false), (0, vec![]), "{words:?}");
    }
}

/// What opening and the calls on the volume give with bodies checked: text, or the number of the refusal.
fn checked_answers(image: &[u8]) -> Vec<Result<String, u64>> {
    const PATHS: [&str; 6] = ["", "SHOW", "SHOW/9", "SHOW/10.1A", "SHOW/11", "SHOW/none"];
    let vault = match Counted::open_as(image, How { checked: true, ..How::default() }) {
        Ok(vault) => vault.value,
        Err(refused) => return vec![Err(refused.number()); 1 + 3 * PATHS.len()],
    };
    let mut said = vec![Ok(format!("{:?}", vault.root_directory_icb()))];
    for path in PATHS.map(str::as_bytes) {
        let found = vault.lookup(path).map(|found| found.value);
        said.push(found.as_ref().map(|icb| format!("{icb:?}")).map_err(|refused| refused.number()));
        let listed = found.and_then(|icb| vault.read_directory(icb));
        said.push(listed.map(|entries| format!("{:?}", entries.value)).map_err(|refused| refused.number()));
        said.push(vault.read_path(path).map(|read| format!("{:?}", read.value)).map_err(|refused| refused.number()));
    }
    said
}

/// The places of the descriptors at the fronts of sectors, with the CRC's bytes and some behind them.
fn descriptors(image: &[u8]) -> Vec<std::ops::Range<usize>> {
    let tags = (0..image.len()).step_by(SECTOR).filter_map(|at| {
        let number = |i: usize| usize::from(u16::from_le_bytes([image[at + i], image[at + i + 1]]));
        let end = at + 16 + number(10);
        let right = number(0) != 0 && end <= image.len() && usize::from(crc(&image[at + 16..end])) == number(8);
        right.then_some(at..(end + 16).min(at + SECTOR))
    });
    tags.collect()
}

/// Each bit of each descriptor of the show turned over, one at a time: a checked call is refused, or answers as on the show itself.
#[test]
fn a_bit_that_is_turned_over_is_seen_or_changes_nothing() {
    let mut image = show();
    let good = checked_answers(&image);
    assert!(good.iter().filter(|answer| answer.is_ok()).count() > 10, "{good:?}");
    let (places, mut seen) = (descriptors(&image), [0; 3]);
    assert!(places.len() > 8, "{places:?}");
    for at in places.into_iter().flatten() {
        for bit in 0..8 {
            image[at] ^= 1 << bit;
            let answers = checked_answers(&image);
            image[at] ^= 1 << bit;
            let other: Vec<_> = answers.iter().zip(&good).filter(|(answer, good)| answer != good).collect();
            // By the tag; a volume descriptor with another id is passed over, and then missing.
            assert!(other.iter().all(|(answer, _)| matches!(answer, Err(2 | 3 | 10))), "bit {bit} of {at}: {other:?}");
            let kind = if other.is_empty() { 0 } else { 1 + usize::from(*other[0].0 == Err(10)) };
            seen[kind] += 1;
        }
    }
    println!("{} bits changed nothing, {} were refused by the tag, {} by 10", seen[0], seen[1], seen[2]);
    assert!(seen.iter().all(|n| *n > 500), "{seen:?}");
}
