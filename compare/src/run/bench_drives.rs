//! How long it takes a sector at a time: by steps over an image beside one call, and by `Drive` over a file beside the original on the same file.

use super::bench::{MIB, ROUNDS, Row, entries, extents, original, spread};
use super::calls::Call;
use super::original::long;
use crate::udf::{UdfDisc, within};
use std::fs::File;
use std::hint::black_box;
use std::io::{Result, Write};
use std::path::{Path, PathBuf};
use std::time::Instant;
use strandlodge::{Drive, LongAd};
use strandlodge_sys::vault::*;

/// The nanoseconds of so many turns.
fn timed<T>(times: u32, mut once: impl FnMut() -> T) -> u64 {
    let began = Instant::now();
    for _ in 0..times {
        black_box(once());
    }
    began.elapsed().as_nanos() as u64
}

/// A row of the table: one by turns with another.
fn row(name: &str, mut one: impl FnMut(u32) -> u64, mut other: impl FnMut(u32) -> u64) -> String {
    let once = one(1).max(other(1)).max(1);
    // About a tenth of a second for each side in each round.
    let times = (100_000_000 / once).clamp(1, 20_000) as u32;
    let each = |nanoseconds: u64| nanoseconds as f64 / times as f64 / 1000.0;
    let (mut ours, mut theirs) = (Vec::new(), Vec::new());
    for _ in 0..ROUNDS {
        ours.push(each(one(times)));
        theirs.push(each(other(times)));
    }
    let (ours, theirs) = (spread(ours), spread(theirs));
    format!("| {name} | {ours} | {theirs} | {:.2} |", ours.0 / theirs.0)
}

/// A file's read by steps, each lent the sector where it stands in the image.
fn steps(r: &Row, row: &mut [Extent], out: &mut [u8]) -> u64 {
    let (image, q) = (&r.disc.image, &r.query);
    // SAFETY: what is lent is as long as said, and apart from each other; where nothing is lent there is nothing to be seen to.
    unsafe {
        let mut state = vault_reading_start(q.volume.into(), q.icb.into(), row.as_mut_ptr(), row.len());
        while vault_reading_is_wanting(state) {
            let at = vault_reading_wants(state) as usize * 2048;
            let sector = image.get(at..at + 2048).unwrap_or_default();
            state = vault_reading_step(state, sector.as_ptr(), sector.len(), row.as_mut_ptr(), row.len(), out.as_mut_ptr(), out.len());
        }
        assert_eq!((state.answer, state.length), (DONE, out.len()), "{}", r.name);
        state.count
    }
}

/// The same by one call.
fn call(r: &Row, out: &mut [u8]) -> u64 {
    let (image, q) = (&r.disc.image, &r.query);
    // SAFETY: as above.
    let reply = unsafe { vault_read(q.volume.into(), image.as_ptr(), image.len(), q.icb.into(), out.as_mut_ptr(), out.len()) };
    assert_eq!((reply.answer, reply.length), (DONE, out.len() as u64), "{}", r.name);
    reply.count
}

/// By steps over an image, beside one call and beside the original.
fn over_an_image(name: &str, bytes: usize, n: usize) -> [String; 2] {
    let r = extents(name, bytes, n);
    let (mut slots, mut out, mut other) =
        (vec![Extent { length: 0, extent_type: 0, block: 0, partition: 0 }; n], vec![0; bytes], vec![0; bytes]);
    assert_eq!(steps(&r, &mut slots, &mut out), call(&r, &mut other));
    assert!(out == other, "{name}: other bytes by steps");
    let beside = row(
        &format!("{name}, by steps, beside one call"),
        |times| timed(times, || steps(&r, &mut slots, &mut out)),
        |times| timed(times, || call(&r, &mut other)),
    );
    let original = row(
        &format!("{name}, by steps, beside the original from a Cursor"),
        |times| timed(times, || steps(&r, &mut slots, &mut out)),
        |times| original(&r.disc.image, &r.query, times),
    );
    [beside, original]
}

/// A file with an image, in memory where the machine has such files. It is taken away when dropped.
struct Stored(PathBuf);

impl Stored {
    fn new(image: &[u8]) -> Result<Stored> {
        let shared = Path::new("/dev/shm");
        let folder = if shared.is_dir() { shared.to_path_buf() } else { std::env::temp_dir() };
        let name = folder.join(format!("compare-{}", std::process::id()));
        let stored = Stored(name);
        File::create(&stored.0)?.write_all(image)?;
        Ok(stored)
    }
}

impl Drop for Stored {
    fn drop(&mut self) {
        let _ = std::fs::remove_file(&self.0);
    }
}

fn ours(icb: super::calls::Icb) -> LongAd {
    let location = strandlodge::LbAddr { block: icb.block, partition_ref: icb.partition };
    LongAd { length: icb.length, extent_type: icb.extent_type, location, implementation_use: icb.implementation_use }
}

/// By `Drive` over a file, beside the original over it.
fn over_a_file(r: Row) -> Result<String> {
    let stored = Stored::new(&r.disc.image)?;
    let (q, path) = (&r.query, std::str::from_utf8(&r.query.path).unwrap());
    let mut drive = Drive::open(File::open(&stored.0)?).expect("a disc");
    let mut disc = within::disc(File::open(&stored.0)?, q.volume.start, q.volume.partition, long(q.volume.root));
    let name = format!("{}, Drive over a file, beside the original", r.name);
    Ok(match q.call {
        Call::Open => row(
            &name,
            |times| timed(times, || Drive::open(File::open(&stored.0).unwrap())),
            |times| timed(times, || UdfDisc::open(File::open(&stored.0).unwrap())),
        ),
        Call::Lookup => row(&name, |times| timed(times, || drive.lookup(path)), |times| timed(times, || disc.lookup(path))),
        Call::List => row(
            &name,
            |times| timed(times, || drive.read_directory(ours(q.icb))),
            |times| timed(times, || disc.read_directory(long(q.icb))),
        ),
        _ => {
            assert!(drive.read_file(ours(q.icb)).unwrap() == disc.read_file(long(q.icb)).unwrap(), "{name}: other bytes");
            row(&name, |times| timed(times, || drive.read_file(ours(q.icb))), |times| timed(times, || disc.read_file(long(q.icb))))
        }
    })
}

/// A table of microseconds: the middle of nine rounds by turns, with the least and the most.
pub fn run() -> Result<()> {
    println!("\n| a sector at a time | ours, µs | the other, µs | ours / the other |");
    println!("|---|---|---|---|");
    for (name, bytes, n) in
        [("read, 4 KiB", 4096, 1), ("read, 256 MiB in one extent", 256 * MIB, 1), ("read, 256 MiB in 4,096 extents", 256 * MIB, 4096)]
    {
        over_an_image(name, bytes, n).iter().for_each(|row| println!("{row}"));
    }
    let files: [fn() -> Row; 6] = [
        opening,
        || entries("lookup, last of 5,000", 5000, Call::Lookup, MIB),
        || entries("list, 5,000 entries", 5000, Call::List, MIB),
        || extents("read, 4 KiB", 4096, 1),
        || extents("read, 256 MiB in one extent", 256 * MIB, 1),
        || extents("read, 256 MiB in 4,096 extents", 256 * MIB, 4096),
    ];
    for file in files {
        println!("{}", over_a_file(file())?);
    }
    Ok(())
}

fn opening() -> Row {
    let mut r = entries("open", 1, Call::Lookup, MIB);
    r.query.call = Call::Open;
    r
}
