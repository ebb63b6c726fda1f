//! A file written by its runs: straight from the image, by the system's own copy. No byte of it is in memory of this program's own, or looked at here, and all
//! that is refused is refused before the first byte is written.

use crate::bar::{Bar, Count};
use crate::disc::{OpenDisc, Volume};
use crate::drive::{Drawn, Metered};
use crate::failure::{Failure, NO_IMAGE};
use crate::file::{self, PIECE, Target};
use crate::steps::quoted;
use std::io::{self, IoSlice, Write};
use strandlodge::{Answered, Asked, Counted, LongAd, Refusal, Refused, Runs};

/// So many short runs are written at once: the system takes no more.
const AT_ONCE: usize = 1024;

/// A file of any disc may have so many bytes; else it has no more than its image, unless its extents overlap.
const SOME_FILE: u64 = 256 << 20;

/// What the system says of memory that it can't look at: of a map, a sector that can't be had.
const FAULT: i32 = 14;

/// What of a file is wanted.
#[derive(Debug, Clone, Copy, Default, PartialEq, Eq)]
pub struct Span {
    /// The first byte.
    pub from: u64,
    /// So many at most; none are all.
    pub bytes: Option<u64>,
}

/// The runs of what is wanted of a file. A file whose extents overlap may have more bytes than any disk: unless it is said how many are wanted, one that has
/// more than its image is refused by 5.
pub fn wanted<'a>(volume: &Counted<'a>, icb: LongAd, span: Span) -> Answered<Runs<'a>> {
    let runs = volume.runs(icb)?;
    let (sectors, most) = (runs.sectors, (volume.image().len() as u64).max(SOME_FILE));
    if span.bytes.is_none() && runs.len() > most {
        return Err(Refused { why: Refusal::NoRoom, sectors });
    }
    Ok(runs.map(|runs| runs.range(span.from, span.bytes.unwrap_or(u64::MAX))))
}

/// The same, of what a path gave.
pub fn find<'a>(disc: &mut OpenDisc<Counted<'a>>, path: &[u8], icb: LongAd, span: Span) -> Result<Runs<'a>, Failure> {
    let runs = wanted(&disc.volume, icb, span);
    counted(disc, path, icb, runs)
}

/// Notes the count of what was asked of a file, and gives its value.
pub fn counted<V: Volume, T>(disc: &mut OpenDisc<V>, path: &[u8], icb: LongAd, answer: Answered<T>) -> Result<T, Failure> {
    match disc.log.count("read_file", answer) {
        Err(answer) => Err(refused(disc, path, icb, answer)),
        Ok(read) => {
            disc.see_file(path, icb);
            Ok(read)
        }
    }
}

/// Why a file isn't read. Here memory is no reason for 5: the file has more bytes than its image.
pub fn refused<V: Volume>(disc: &mut OpenDisc<V>, path: &[u8], icb: LongAd, refused: Refused) -> Failure {
    let says = "the file is longer than its image, because its extents overlap; to read N bytes of it, use cat or get with --bytes N";
    match refused.why {
        Refusal::NoRoom => Failure::with_number(refused, format!("{}: {}: {says}", disc.name, quoted(path))),
        _ => disc.refused(path, Asked::ReadFile(icb), refused),
    }
}

/// Writes runs to a file, with a bar, and gives how many bytes they have.
pub fn put(runs: Runs, target: &Target) -> Result<u64, Failure> {
    let (length, mut bar) = (runs.len(), Bar::new(runs.len()));
    target.fill(|file| {
        let mut to = Drawn { to: file, bar: &mut bar };
        write(runs, &mut to).map_err(|error| lost(error, |error| target.unwritten(error)))
    })?;
    Ok(length)
}

/// Writes runs to standard output, behind what was written to `out`, which has a buffer over it.
pub fn print(runs: Runs, out: &mut impl Write) -> Result<(), Failure> {
    out.flush().map_err(Failure::output)?;
    let output = file::output().map_err(Failure::output)?;
    write(runs, &mut Metered::new(output, Count::new("MiB"))).map_err(|error| lost(error, Failure::output))
}

/// A write that failed: for want of the image, or else as is said.
pub fn lost(error: io::Error, unwritten: impl FnOnce(io::Error) -> Failure) -> Failure {
    if error.raw_os_error() == Some(FAULT) {
        return Failure::new(NO_IMAGE, "can't read the image any more: the drive returned no data, or the file was cut short");
    }
    unwritten(error)
}

/// Writes runs, long ones a piece at a time and short ones together.
pub fn write(runs: Runs, to: &mut impl Write) -> io::Result<()> {
    let (mut slices, mut bytes) = (Vec::new(), 0);
    for piece in runs.flat_map(|run| run.chunks(PIECE)) {
        if slices.len() == AT_ONCE || bytes + piece.len() > PIECE {
            write_slices(&mut slices, to)?;
            slices.clear();
            bytes = 0;
        }
        slices.push(IoSlice::new(piece));
        bytes += piece.len();
    }
    write_slices(&mut slices, to)
}

/// Each has a byte at least.
fn write_slices(slices: &mut [IoSlice], to: &mut impl Write) -> io::Result<()> {
    let mut rest = slices;
    while !rest.is_empty() {
        match to.write_vectored(rest) {
            Ok(0) => return Err(io::ErrorKind::WriteZero.into()),
            Ok(n) => IoSlice::advance_slices(&mut rest, n),
            Err(error) if error.kind() == io::ErrorKind::Interrupted => {}
            Err(error) => return Err(error),
        }
    }
    Ok(())
}

#[cfg(test)]
mod tests {
    use super::*;
    use crate::map::Map;
    use std::fs::{self, File};

    /// A writer that takes few bytes at a time, and is interrupted between.
    struct Few(Vec<u8>, bool);

    impl Write for Few {
        fn write(&mut self, bytes: &[u8]) -> io::Result<usize> {
            self.1 = !self.1;
            if self.1 {
                return Err(io::ErrorKind::Interrupted.into());
            }
            let n = bytes.len().min(7);
            self.0.extend_from_slice(&bytes[..n]);
            Ok(n)
        }

        fn flush(&mut self) -> io::Result<()> {
            Ok(())
        }
    }

    #[test]
    fn a_writer_may_take_few_bytes_at_a_time() {
        let bytes: Vec<u8> = (0..5000u32).map(|i| (i % 251) as u8).collect();
        let image = strandlodge::write(&[("9", &bytes)]).unwrap();
        let vault = strandlodge::Disc::open(&image).unwrap();
        let runs = vault.runs(vault.lookup("9").unwrap()).unwrap();
        let mut few = Few(Vec::new(), false);
        write(runs.clone(), &mut few).unwrap();
        assert_eq!(few.0, bytes);
        assert_eq!(write(runs, &mut &mut [0; 9][..]).unwrap_err().kind(), io::ErrorKind::WriteZero);
    }

    /// The system's copy meets a page that is gone: that is the image's fault, and no signal comes.
    #[test]
    fn an_image_that_is_cut_short_is_told_of() {
        let folder = std::env::temp_dir().join(format!("vault-runs-{}", std::process::id()));
        fs::create_dir(&folder).unwrap();
        let (name, to) = (folder.join("disc.img"), folder.join("film"));
        let image = strandlodge::write(&[("9", &[7; 100_000])]).unwrap();
        fs::write(&name, &image).unwrap();
        let file = File::options().read(true).write(true).open(&name).unwrap();
        let map = Map::new(&file, image.len()).unwrap();
        let vault = strandlodge::Disc::open(&map[..]).unwrap();
        let runs = vault.runs(vault.lookup("9").unwrap()).unwrap();
        file.set_len(runs.places().next().unwrap().at + 50_000).unwrap();
        let failure = put(runs, &Target::at(to.as_os_str()).unwrap()).unwrap_err();
        assert_eq!((failure.status, failure.says.unwrap().contains("can't read the image any more")), (NO_IMAGE, true));
        assert_eq!(fs::read_dir(&folder).unwrap().count(), 1);
        fs::remove_dir_all(&folder).unwrap();
    }
}
