//! A file as runs of the image: cut at every border, written by the command with no memory for it, and in part.

mod common;

use common::command::{Folder, Said};
use common::{SECTOR, TestDisc, continuation, continued, hold_runs, named, noise, short_ad, show};
use std::fs::{self, File};
use std::io::{Read, Seek, SeekFrom, Write};
use std::os::unix::fs::FileExt;
use std::process::{Command, Stdio};
use std::time::Instant;
use strandlodge::{Counted, Disc, LongAd, Refusal, Refused, Run, Runs};

fn joined(runs: Runs) -> Vec<u8> {
    runs.collect::<Vec<_>>().concat()
}

/// A disc with one file, `FILM`, of this entry.
fn with_film(mut disc: TestDisc, entry: u32) -> Vec<u8> {
    let root = disc.directory(&[named("FILM", entry, false)]);
    disc.root(root);
    disc.0
}

/// A film in extents of these lengths, which stand on the disc in the opposite order, and of so many bytes in all.
fn pieces(lengths: &[usize], length: u64) -> (Vec<u8>, Vec<u8>) {
    let (mut disc, bytes) = (TestDisc::new(), noise(lengths.iter().sum()));
    let (mut end, mut area) = (bytes.len(), Vec::new());
    for length in lengths.iter().rev() {
        area.push(short_ad(*length, disc.lay(&bytes[end - length..end])));
        end -= length;
    }
    area.reverse();
    let entry = disc.entry(0, &area.concat(), length);
    let film = bytes[..bytes.len().min(length as usize)].to_vec();
    (with_film(disc, entry), film)
}

const LENGTHS: [usize; 6] = [1, 2048, 3000, 2047, 5000, 4096];

#[test]
fn runs_are_cut_at_every_border() {
    let (image, film) = pieces(&LENGTHS, 16_000);
    let vault = Disc::open(&image).unwrap();
    let runs = vault.runs(vault.lookup("FILM").unwrap()).unwrap();
    assert_eq!((runs.len(), runs.is_empty(), runs.places().count()), (16_000, false, 6));
    assert_eq!(runs.places().map(|run| run.length).collect::<Vec<_>>(), [1, 2048, 3000, 2047, 5000, 3904]);
    assert_eq!(joined(runs.clone()), film);
    let ends = LENGTHS.iter().scan(0, |at, length| {
        *at += *length as u64;
        Some(*at)
    });
    let mut borders: Vec<u64> =
        ends.flat_map(|end| [end.saturating_sub(1), end, end + 1]).chain([0, 15_999, 16_000, 16_001, u64::MAX]).collect();
    borders.sort();
    borders.dedup();
    for from in &borders {
        for bytes in borders.iter().map(|to| to.saturating_sub(*from)).chain([0, 1, u64::MAX]) {
            let wanted = film.iter().copied().skip(usize::try_from(*from).unwrap()).take(usize::try_from(bytes).unwrap());
            let (part, wanted) = (runs.clone().range(*from, bytes), wanted.collect::<Vec<u8>>());
            assert_eq!((part.len(), part.is_empty()), (wanted.len() as u64, wanted.is_empty()), "{bytes} from {from}");
            assert!(part.places().all(|run| run.length > 0));
            assert_eq!(part.places().map(|run| run.length).sum::<u64>(), wanted.len() as u64);
            assert_eq!(joined(part), wanted, "{bytes} from {from}");
        }
    }
}

#[test]
fn what_is_taken_is_no_longer_told_of() {
    let (image, film) = pieces(&LENGTHS, 16_000);
    let vault = Disc::open(&image).unwrap();
    let mut runs = vault.runs(vault.lookup("FILM").unwrap()).unwrap();
    assert_eq!(runs.next().unwrap(), &film[..1]);
    assert_eq!((runs.len(), runs.places().count(), runs.size_hint()), (15_999, 5, (5, Some(5))));
    assert_eq!(format!("{runs:?}"), "Runs { runs: 5, bytes: 15999, .. }");
    // Counted from the first that is still to come.
    let mut rest = runs.range(2048, 3001);
    assert_eq!((rest.next().unwrap(), rest.next().unwrap()), (&film[2049..5049], &film[5049..5050]));
    assert_eq!((rest.next(), rest.next(), rest.len(), rest.places().count()), (None, None, 0, 0));
    assert!(rest.range(0, u64::MAX).is_empty());
}

#[test]
fn an_empty_file_has_none_and_an_embedded_one_is_one() {
    let mut disc = TestDisc::new();
    let files = [disc.entry(0, &[], 0), disc.entry(3, b"cue", 3), disc.entry(0, &short_ad(0, 7), 1 << 60), disc.entry(3, b"", 0)];
    let root = disc.directory(&files.iter().enumerate().map(|(i, block)| named(&i.to_string(), *block, false)).collect::<Vec<_>>());
    disc.root(root);
    let vault = Counted::open(&disc.0).unwrap();
    for (name, runs) in [("0", 0), ("1", 1), ("2", 0), ("3", 0)] {
        let icb = vault.lookup(name).unwrap().value;
        let given = vault.runs(icb).unwrap();
        assert_eq!((given.places().count(), given.is_empty(), given.sectors), (runs, runs == 0, vault.read_file(icb).unwrap().sectors));
        hold_runs(&vault, icb);
    }
    let icb = vault.lookup("1").unwrap().value;
    let (mut runs, part) = (vault.runs(icb).unwrap(), vault.part(icb).unwrap().value);
    assert_eq!((runs.next().unwrap().as_ptr(), runs.next()), (part.as_ptr(), None));
}

/// Of a vault that owns its image they borrow from it; a directory has runs too.
#[test]
fn the_sample_show_by_its_runs() {
    let image = show();
    let (owned, counted) = (Disc::open(image.clone()).unwrap(), Counted::open(&image).unwrap());
    for path in ["", "SHOW", "SHOW/9", "SHOW/10.1A", "SHOW/11"] {
        let icb: LongAd = owned.lookup(path).unwrap();
        let (runs, again) = (owned.runs(icb).unwrap(), counted.runs(counted.lookup(path).unwrap()).unwrap());
        assert_eq!(runs.places().collect::<Vec<Run>>(), again.places().collect::<Vec<_>>());
        assert_eq!(joined(runs), owned.read_file(icb).unwrap());
        hold_runs(&counted, icb);
        // A loop over an answer is one over its value.
        assert_eq!(again.into_iter().map(<[u8]>::len).sum::<usize>(), owned.read_file(icb).unwrap().len());
    }
}

#[test]
fn runs_are_refused_as_the_read_is() {
    let (image, _) = pieces(&LENGTHS, 16_000);
    let whole = Counted::open(&image).unwrap();
    let icb = whole.lookup("FILM").unwrap().value;
    // Its first extent stands last of its extents: cut short anywhere, the image has its entry or doesn't.
    let mut seen = [0; 2];
    for sectors in (0..=image.len() / SECTOR).rev() {
        let Ok(vault) = Counted::open(&image[..sectors * SECTOR]) else { break };
        hold_runs(&vault, icb);
        seen[usize::from(vault.runs(icb).is_err())] += 1;
    }
    assert!(seen.iter().all(|n| *n > 2), "{seen:?}");
    // A hole, and an ICB that leads nowhere.
    let mut disc = TestDisc::new();
    let hole = disc.entry(0, &short_ad(5000 | 1 << 30, 0), 5000);
    let image = with_film(disc, hole);
    let vault = Counted::open(&image).unwrap();
    let icb = vault.lookup("FILM").unwrap().value;
    assert_eq!(vault.runs(icb).unwrap_err().why, Refusal::Unsupported);
    hold_runs(&vault, icb);
    hold_runs(&vault, LongAd { length: 0, ..icb });
}

/// A file of 400 extents over the same MiB, in an image of less than two.
fn overlapping() -> Vec<u8> {
    let (mut disc, mib) = (TestDisc::new(), noise(1 << 20));
    let area = short_ad(1 << 20, disc.lay(&mib)).repeat(400);
    let further = disc.lay(&continuation(&area));
    let entry = disc.entry(0, &continued(24 + area.len(), further), 1 << 60);
    with_film(disc, entry)
}

#[test]
fn a_file_of_more_bytes_than_its_image_has_its_runs() {
    let image = overlapping();
    let vault = Counted::open(&image).unwrap();
    let icb = vault.lookup("FILM").unwrap().value;
    let sectors = match vault.read_file(icb) {
        Err(Refused { why: Refusal::NoRoom, sectors }) => sectors,
        other => panic!("{other:?}"),
    };
    let runs = vault.runs(icb).unwrap();
    assert_eq!((runs.len(), runs.places().count(), runs.sectors), (400 << 20, 400, sectors));
    assert_eq!(joined(runs.value.range((399 << 20) - 5, 10)), [&noise(1 << 20)[(1 << 20) - 5..], &noise(5)].concat());
}

/// More runs than are lent at first, and than the system writes at once: 100,000 of 100 bytes each and one of one.
fn scattered() -> (Vec<u8>, Vec<u8>) {
    let (mut disc, cue) = (TestDisc::new(), noise(100));
    let block = disc.lay(&cue);
    let area = short_ad(100, block).repeat(100_000);
    let further = disc.lay(&continuation(&area));
    let entry = disc.entry(0, &[&short_ad(1, block)[..], &continued(24 + area.len(), further)].concat(), u64::MAX);
    (with_film(disc, entry), [&cue[..1], &cue.repeat(100_000)].concat())
}

#[test]
fn the_row_grows_until_the_runs_fit() {
    let (image, film) = scattered();
    let vault = Counted::open(&image).unwrap();
    let icb = vault.lookup("FILM").unwrap().value;
    assert_eq!(vault.runs(icb).unwrap().places().count(), 100_001);
    assert!(joined(vault.runs(icb).unwrap().value) == film);
    hold_runs(&vault, icb);
}

/// The command on a disc with a film, which stands in `disc.img`; the film's bytes go to `to`.
struct Shelf(Folder);

impl Shelf {
    fn new(image: &[u8]) -> Shelf {
        let folder = Folder::new();
        folder.write("disc.img", image);
        fs::create_dir(folder.at("to")).unwrap();
        Shelf(folder)
    }

    fn says(&self, words: &str) -> Said {
        self.0.vault(&words.split(' ').collect::<Vec<_>>())
    }

    /// Each way to have the film.
    fn gives(&self, film: &[u8]) {
        for (words, file) in [
            ("get disc.img FILM film", "film"),
            ("get disc.img -o to FILM", "to/FILM"),
            ("get -r disc.img -o to", "to/FILM"),
            ("--copy get disc.img FILM film", "film"),
        ] {
            let said = self.says(words);
            assert!(said.status == 0 && said.error.is_empty(), "{words}: {said:?}");
            assert!(fs::read(self.0.at(file)).unwrap() == film, "{words}");
            fs::remove_file(self.0.at(file)).unwrap();
        }
        let said = self.says("cat disc.img FILM");
        assert!(said.status == 0 && said.error.is_empty() && said.bytes == film);
    }
}

#[test]
fn the_command_writes_runs() {
    for (image, film) in
        [pieces(&LENGTHS, 16_000), pieces(&LENGTHS, u64::MAX), pieces(&[0], 0), scattered(), pieces(&[3_000_001, 1, 2_000_000], 5_000_001)]
    {
        Shelf::new(&image).gives(&film);
    }
}

#[test]
fn a_part_of_a_file_is_written() {
    let (image, film) = pieces(&LENGTHS, 16_000);
    let shelf = Shelf::new(&image);
    for (words, part) in [
        ("--from 0", &film[..]),
        ("--bytes 16000", &film),
        ("--from 5 --bytes 3000", &film[5..3005]),
        ("--bytes 1", &film[..1]),
        ("--bytes 0", &[]),
        ("--from 15999", &film[15_999..]),
        ("--from 15999 --bytes 2", &film[15_999..]),
        ("--from 16000", &[]),
        ("--from 18446744073709551615 --bytes 18446744073709551615", &[]),
    ] {
        let said = shelf.says(&format!("cat disc.img FILM {words}"));
        assert!(said.status == 0 && said.error.is_empty() && said.bytes == part, "{words}: {said:?}");
        let said = shelf.says(&format!("get {words} disc.img FILM film"));
        assert!(said.status == 0 && said.error.is_empty() && said.out.is_empty(), "{words}: {said:?}");
        assert_eq!(fs::read(shelf.0.at("film")).unwrap(), part, "{words}");
    }
    for words in
        ["cat disc.img FILM --from 1 --drive", "get disc.img FILM -o to --bytes 1", "ls disc.img --from 1", "cat disc.img FILM --bytes -1"]
    {
        assert_eq!(shelf.says(words).status, 64, "{words}");
    }
}

/// What a part is of must be had whole.
#[test]
fn a_part_of_a_file_that_is_cut_short_is_refused() {
    let folder = Folder::new();
    let disc = sparse(&folder, &[20_000, 30_000]);
    assert_eq!(folder.vault(&["cat", "disc.img", "FILM", "--bytes", "7"]).bytes, noise(7));
    disc.set_len(disc.metadata().unwrap().len() - 1).unwrap();
    let said = folder.vault(&["cat", "disc.img", "FILM", "--bytes", "7"]);
    assert_eq!((said.status, said.bytes), (1, vec![]));
}

/// Nobody wants 2^52 bytes on their disk since a disc has them.
#[test]
fn a_file_of_more_bytes_than_its_image_is_written_in_part() {
    let shelf = Shelf::new(&overlapping());
    let sentence = "vault: disc.img: \"FILM\": the file is longer than its image, because its extents overlap; \
                    to read N bytes of it, use cat or get with --bytes N (refusal 5)\n";
    for words in ["cat disc.img FILM", "get disc.img FILM film", "cat disc.img FILM --from 400000000"] {
        let said = shelf.says(words);
        assert_eq!((said.status, said.error.as_str(), said.bytes.len()), (5, sentence, 0), "{words}");
    }
    for words in ["get disc.img -o to FILM", "get -r disc.img -o to"] {
        let said = shelf.says(words);
        assert!(said.status == 67 && said.error.starts_with(sentence), "{words}: {said:?}");
    }
    assert_eq!(fs::read_dir(shelf.0.at("to")).unwrap().count(), 0);
    let said = shelf.says("cat disc.img FILM --from 400000000 --bytes 7");
    assert_eq!((said.status, said.bytes), (0, noise(1 << 20)[400_000_000 % (1 << 20)..][..7].to_vec()));
}

/// Noise where an extent begins, and where it ends.
const MARK: usize = 10_000;

/// A sparse disc with a film in extents of these lengths, which stand one behind another: zeros but for the marks.
fn sparse(folder: &Folder, lengths: &[u64]) -> File {
    let (mut disc, mut area) = (TestDisc::new(), Vec::new());
    // Behind the entry and the directory.
    let first = disc.lay(&[]) + 16;
    let mut block = first;
    for length in lengths {
        area.push(short_ad(*length as usize, block));
        block += length.div_ceil(SECTOR as u64) as u32;
    }
    let start = disc.0.len() as u64 + 16 * SECTOR as u64;
    let entry = disc.entry(0, &area.concat(), lengths.iter().sum());
    let image = with_film(disc, entry);
    assert!(image.len() as u64 <= start);
    let file = File::create_new(folder.at("disc.img")).unwrap();
    file.write_all_at(&image, 0).unwrap();
    file.set_len(start + u64::from(block - first) * SECTOR as u64).unwrap();
    let mut at = start;
    for (i, length) in lengths.iter().enumerate() {
        file.write_all_at(&noise(MARK + i)[i..], at).unwrap();
        file.write_all_at(&noise(MARK + 99 + i)[99 + i..], at + length - MARK as u64).unwrap();
        at += length.next_multiple_of(SECTOR as u64);
    }
    file
}

/// Holds a film of that kind to its marks, its length and zeros between, a piece at a time.
fn hold_sparse(film: &mut (impl Read + Seek), lengths: &[u64]) {
    let mut at = 0;
    for (i, length) in lengths.iter().enumerate() {
        let mut marks = [[0; MARK]; 3];
        for (mark, place) in marks.iter_mut().zip([at, at + length / 2, at + length - MARK as u64]) {
            film.seek(SeekFrom::Start(place)).and_then(|_| film.read_exact(mark)).unwrap();
        }
        assert!(marks[0] == noise(MARK + i)[i..] && marks[1] == [0; MARK] && marks[2] == noise(MARK + 99 + i)[99 + i..], "extent {i}");
        at += length;
    }
    assert_eq!(film.seek(SeekFrom::End(0)).unwrap(), at);
}

/// The command in a shell that gives it so many KiB of memory, maps among them.
fn within(folder: &Folder, limit: u64, words: &str, to: Stdio) -> Said {
    let line = format!("ulimit -v {limit}; exec \"$@\"");
    let mut shell = Command::new("sh");
    shell.args(["-c", &line, "sh", env!("CARGO_BIN_EXE_vault")]).args(words.split(' ')).current_dir(&folder.0);
    Said::of(shell.stdin(Stdio::null()).stdout(to).output().unwrap())
}

/// 64 MiB of address space for the map of the image, and 24 for all else: the film has no room there.
#[test]
fn a_film_is_written_with_no_room_for_it() {
    let (folder, lengths) = (Folder::new(), [20 << 20, (30 << 20) - 777, (14 << 20) + 777]);
    let image = sparse(&folder, &lengths).metadata().unwrap().len();
    let limit = (image >> 10) + (24 << 10);
    fs::create_dir(folder.at("to")).unwrap();
    for (words, file) in [("get disc.img FILM film", "film"), ("get disc.img -o to FILM", "to/FILM"), ("get -r disc.img -o to", "to/FILM")]
    {
        let said = within(&folder, limit, words, Stdio::piped());
        assert_eq!((said.status, said.error.as_str()), (0, ""), "{words}");
        hold_sparse(&mut File::open(folder.at(file)).unwrap(), &lengths);
        fs::remove_file(folder.at(file)).unwrap();
    }
    let said = within(&folder, limit, "cat disc.img FILM", File::create(folder.at("film")).unwrap().into());
    assert_eq!((said.status, said.error.as_str()), (0, ""));
    hold_sparse(&mut File::open(folder.at("film")).unwrap(), &lengths);
    // There is no memory for it: a copy of the image can't be had.
    assert_eq!(within(&folder, 64 << 10, "--copy cat disc.img FILM", Stdio::piped()).status, 66);
}

/// The figures of docs/COMPARING.md: a film of 3 GB, written to a pipe and to a file, by the command, or by another that VAULT_COMMAND names.
///
///     cargo test --release --test runs -- --ignored --nocapture
#[test]
#[ignore = "takes 6 GB of disk space"]
fn a_film_of_3_gb() {
    let (folder, lengths) = (Folder::new(), [(1 << 30) - 2048, (1 << 30) - 2048, 3_000_000_000 - 2 * ((1 << 30) - 2048)]);
    sparse(&folder, &lengths);
    let command = std::env::var("VAULT_COMMAND").unwrap_or(env!("CARGO_BIN_EXE_vault").to_string());
    for line in ["\"$0\" cat disc.img FILM | cat >/dev/null", "\"$0\" cat disc.img FILM >film", "\"$0\" get disc.img FILM film"] {
        let _ = fs::remove_file(folder.at("film"));
        let timed = line.replace("\"$0\"", "/usr/bin/time -f '%M KiB, %e s' \"$0\"");
        let began = Instant::now();
        let said = Said::of(Command::new("sh").args(["-c", &timed, &command]).current_dir(&folder.0).output().unwrap());
        println!("{line}: {} ({:?} in all)", said.error.trim(), began.elapsed());
        if let Ok(mut film) = File::open(folder.at("film")) {
            hold_sparse(&mut film, &lengths);
        }
    }
    std::io::stdout().flush().unwrap();
}
