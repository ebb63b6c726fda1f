//! Images that the archive writes, read by the original, and by libudfread where that is installed: every name in its order, and every byte.

use super::calls::Volume;
use super::given;
use super::original::{self, Original, icb};
use super::random::Random;
use super::ways::{self, Way};
use std::hint::black_box;
use std::io::Result;
use std::time::Instant;
use strandlodge_sys::vault::{DONE, vault_write, vault_write_total};

/// The bytes of a sector.
const SECTOR: usize = 2048;

/// The files of a vault: names and bytes.
type Files = Vec<(String, Vec<u8>)>;

/// Files of these sizes under names of a byte, of 127 bytes, and with a number.
fn sized(random: &mut Random, sizes: &[usize]) -> Files {
    let name = |i: usize| match i {
        0 => "~".to_string(),
        1 => "n".repeat(127),
        _ => format!("cue{i}"),
    };
    sizes.iter().enumerate().map(|(i, size)| (name(i), random.bytes(*size))).collect()
}

/// Printable characters of which no two are equal with ASCII case ignored, nor a slash or a backslash, which libudfread takes for one.
const CHARACTERS: &[u8; 65] = b"!#$%&'()*+,-.0123456789:;<=>?@ABCDEFGHIJKLMNOPQRSTUVWXYZ[]^_`{|}~";

/// The vaults: of no files, one, three, five and 64.
fn vaults(random: &mut Random) -> Vec<(&'static str, Files)> {
    let sizes = [0, 1, 2047, 2048, 2049];
    let mut all = vec![("no files", Files::new())];
    for (what, sizes) in [
        ("an empty file", &[0][..]),
        ("a file of a byte", &[1]),
        ("a file of 3 MiB", &[3 << 20]),
        ("three files", &[2047, 0, 3 << 20]),
        ("three others", &[2048, 2049, 1]),
        ("sizes around a sector", &sizes),
    ] {
        all.push((what, sized(random, sizes)));
    }
    let long = (0..64).map(|i| (format!("{i:02}{}", "x".repeat(125)), random.bytes(sizes[i % 5]))).collect();
    all.push(("64 names of 127 bytes", long));
    let alike = CHARACTERS[..64].iter().enumerate().map(|(i, c)| (format!("10.1{}", char::from(*c)), random.bytes(i))).collect();
    all.push(("64 names that differ in one character", alike));
    all
}

/// What is lent to a writing: the names, the lengths and the files one behind another.
struct Staged {
    names: Vec<u8>,
    lengths: Vec<u64>,
    staging: Vec<u8>,
}

impl Staged {
    fn of(files: &Files) -> Staged {
        let names = files.iter().flat_map(|(name, _)| name.bytes().chain([0])).collect();
        let lengths = files.iter().map(|(_, bytes)| bytes.len() as u64).collect();
        Staged { names, lengths, staging: files.iter().flat_map(|(_, bytes)| bytes).copied().collect() }
    }

    /// Memory for the image.
    fn room(&self) -> Vec<u8> {
        let (names, lengths) = (&self.names, &self.lengths);
        // SAFETY: each piece is lent at its own length.
        let total = unsafe { vault_write_total(names.as_ptr(), names.len(), lengths.as_ptr(), lengths.len()) };
        assert_eq!(total.answer, DONE);
        vec![0xa5; total.sectors as usize * SECTOR]
    }

    /// The image, by the archive.
    fn write(&self, image: &mut [u8]) {
        let Staged { names, lengths, staging } = self;
        let (n, l, s) = (names.len(), lengths.len(), staging.len());
        // SAFETY: each piece is lent at its own length, and no two overlap.
        let reply = unsafe { vault_write(names.as_ptr(), n, lengths.as_ptr(), l, staging.as_ptr(), s, image.as_mut_ptr(), image.len()) };
        assert_eq!((reply.answer, reply.sectors as usize * SECTOR), (DONE, image.len()));
    }
}

/// What the original doesn't read of a vault as it was written.
fn unread(image: &[u8], files: &Files) -> Option<String> {
    let Ok((volume, label)) = original::open(image).value else {
        return Some("the original doesn't open it".to_string());
    };
    let mut disc = Original::new(image, Volume { label: [0; 32], ..volume });
    let listed = disc.list(volume.root).value.unwrap_or_default();
    let names: Vec<&str> = files.iter().map(|(name, _)| name.as_str()).collect();
    if label != "VAULT" || listed.iter().any(|entry| entry.is_directory) || listed.iter().map(|entry| entry.name.as_str()).ne(names) {
        return Some("the original lists something else".to_string());
    }
    for (entry, (name, bytes)) in listed.iter().zip(files) {
        let is_same = disc.read(icb(entry.icb)).value.is_ok_and(|read| read == *bytes);
        if !is_same || !disc.read_path(name).value.is_ok_and(|read| read == *bytes) {
            return Some(format!("the original reads something else of {name}"));
        }
    }
    #[cfg(udfread)]
    return super::udfread::unread(image, files);
    #[cfg(not(udfread))]
    None
}

/// How many vaults were held, with how many files and queries; or what isn't so of the first that wasn't.
pub fn held() -> Result<std::result::Result<[usize; 3], String>> {
    let (mut random, mut sums) = (Random::new(1), [0; 3]);
    for (what, files) in vaults(&mut random) {
        let staged = Staged::of(&files);
        let mut image = staged.room();
        staged.write(&mut image);
        let found = match unread(&image, &files) {
            Some(why) => Err(why),
            None => given::held(ways::ours(Way::Best).as_mut(), &image)?,
        };
        match found {
            Ok((queries, _)) => [1, files.len(), queries].iter().zip(&mut sums).for_each(|(n, sum)| *sum += n),
            Err(why) => return Ok(Err(format!("{what}: {why}"))),
        }
    }
    Ok(Ok(sums))
}

/// The milliseconds of some work.
fn timed(work: impl FnOnce()) -> f64 {
    let began = Instant::now();
    work();
    began.elapsed().as_secs_f64() * 1000.0
}

/// How long it takes to write 256 MiB that are staged, in one file and in 64, beside copying them: the middle of nine rounds, by turns.
pub fn speed() {
    for count in [1, 64] {
        let part = (256 << 20) / count;
        let staged = Staged::of(&(0..count).map(|i| (format!("{i}"), vec![i as u8 + 1; part])).collect());
        let mut image = staged.room();
        let (mut writes, mut copies) = (Vec::new(), Vec::new());
        for _ in 0..9 {
            writes.push(timed(|| staged.write(&mut image)));
            copies.push(timed(|| black_box(&mut image)[720_896..][..staged.staging.len()].copy_from_slice(black_box(&staged.staging))));
        }
        let middle = |mut times: Vec<f64>| {
            times.sort_by(f64::total_cmp);
            times[4]
        };
        let (write, copy) = (middle(writes), middle(copies));
        println!("256 MiB written in {count} files: {write:.1} ms; one copy of them: {copy:.1} ms; written / copied {:.2}", write / copy);
    }
}
