//! `CountedDrive` beside `Counted` on the same images, over readers that fail, that give few bytes at a time, and that change; and `vault --drive`.

mod common;

use common::asked::images;
use common::command::{Folder, Said, left_out, tool};
use common::{SECTOR, TestDisc, continuation, continued, named, noise, short_ad, show};
use std::io::{self, Cursor, Read, Seek, SeekFrom, Write};
use std::process::Command;
use strandlodge::{Counted, CountedDrive, LbAddr, LongAd, Matching, Refusal, Uncopied};
use strandlodge_sys::asked::{Call, Image};

/// A reader of an image that notes what it gave.
#[derive(Default)]
struct Watched {
    image: Vec<u8>,
    at: u64,
    /// The sectors whose last byte was given, in order.
    gave: Vec<u64>,
    seeks: u64,
    /// So many bytes are given at a time at most, and every other read is interrupted; 0: as many as are asked for.
    few: usize,
    reads: u64,
    /// The sector that can't be read once so many sectors were given.
    bad: Option<usize>,
    /// Every byte is another one once its sector was given.
    changes: bool,
}

impl Watched {
    fn of(image: &[u8]) -> Watched {
        Watched { image: image.to_vec(), ..Watched::default() }
    }
}

impl Read for Watched {
    fn read(&mut self, to: &mut [u8]) -> io::Result<usize> {
        self.reads += 1;
        if self.few > 0 && self.reads.is_multiple_of(2) {
            return Err(io::ErrorKind::Interrupted.into());
        }
        let from = (self.at as usize).min(self.image.len());
        let mut n = to.len().min(self.image.len() - from).min(if self.few > 0 { self.few } else { usize::MAX });
        if let Some(good) = self.bad {
            let ends = (from / SECTOR + good.saturating_sub(self.gave.len())) * SECTOR;
            n = n.min(ends.saturating_sub(from));
            if n == 0 {
                return Err(io::Error::other("a scratch"));
            }
        }
        to[..n].copy_from_slice(&self.image[from..from + n]);
        let gave = from / SECTOR..(from + n) / SECTOR;
        self.gave.extend(gave.clone().map(|sector| sector as u64));
        if self.changes {
            self.image[gave.start * SECTOR..gave.end * SECTOR].iter_mut().for_each(|byte| *byte ^= 0x55);
        }
        self.at += n as u64;
        Ok(n)
    }
}

impl Seek for Watched {
    fn seek(&mut self, to: SeekFrom) -> io::Result<u64> {
        self.seeks += 1;
        self.at = match to {
            SeekFrom::Start(at) => at,
            SeekFrom::End(0) => self.image.len() as u64,
            _ => panic!("another seek"),
        };
        Ok(self.at)
    }
}

fn drive(image: &[u8]) -> CountedDrive<Cursor<&[u8]>> {
    CountedDrive::open(Cursor::new(image)).unwrap().value
}

fn number_and_count<T>(answer: &strandlodge::Answered<T>) -> (u64, u64) {
    answer.as_ref().map_or_else(|refused| (refused.number(), refused.sectors), |answer| (0, answer.sectors))
}

const MATCHINGS: [Matching; 3] = [Matching::CaseIgnored, Matching::AsWritten, Matching::Unambiguous];

fn same_path(drive: &mut CountedDrive<Cursor<&[u8]>>, vault: &Counted, path: &[u8]) {
    for matching in MATCHINGS {
        assert_eq!(drive.lookup_as(path, matching), vault.lookup_as(path, matching));
        assert_eq!(drive.failed_as(path, matching), vault.failed_as(path, matching));
        assert_eq!(drive.read_path_as(path, matching), vault.read_path_as(path, matching));
    }
}

fn same_icb(drive: &mut CountedDrive<Cursor<&[u8]>>, vault: &Counted, icb: LongAd) {
    let read = vault.read_file(icb);
    assert_eq!(drive.read_file(icb), read);
    assert_eq!(drive.missed().is_some(), read.as_ref().is_err_and(|refused| refused.may_pass()));
    assert_eq!(drive.read_directory(icb), vault.read_directory(icb));
    let mut to = Vec::new();
    match (drive.copy_file(icb, &mut to), read) {
        (Ok(copied), Ok(read)) => assert_eq!((copied.value, copied.sectors, &to), (read.len() as u64, read.sectors, &read.value)),
        (Err(Uncopied::Refused { refused, written }), Err(why)) => assert_eq!((refused, written), (why, to.len() as u64)),
        (copied, read) => panic!("{copied:?} beside {read:?}"),
    }
}

#[test]
fn every_call_on_the_show() {
    let image = show();
    let (vault, mut drive) = (Counted::open(&image).unwrap(), CountedDrive::open(Cursor::new(&image[..])).unwrap());
    assert_eq!(drive.sectors, vault.sectors);
    assert_eq!(drive.partition_start_sector(), vault.partition_start_sector());
    assert_eq!((drive.partition_number(), drive.root_directory_icb()), (vault.partition_number(), vault.root_directory_icb()));
    let label = drive.label().unwrap();
    assert_eq!((label.value, label.sectors), (vault.label().unwrap().value, 0));
    let root = drive.root_directory_icb();
    assert_eq!(drive.read_directory(root).unwrap(), vault.read_directory(vault.root_directory_icb()).unwrap());
    for path in ["", "SHOW", "show/10.1a", "SHOW/9", "/SHOW//11/", "SHOW/12", "no/12", "SHOW/9/x"] {
        assert_eq!(drive.lookup(path), vault.lookup(path));
        assert_eq!(drive.failed(path), vault.failed(path));
        assert_eq!(drive.read_path(path), vault.read_path(path));
        same_path(&mut drive, &vault, path.as_bytes());
    }
    assert_eq!(format!("{:?}", drive.value).replace("CountedDrive", "Counted"), format!("{:?}", vault.value));
    assert_eq!(drive.value.into_inner().into_inner().len(), image.len());
}

#[test]
fn stored_volumes_open_as_from_memory() {
    let mut opened = 0;
    for Image { name, bytes: image, .. } in images("volumes") {
        let vault = Counted::open(&image);
        match CountedDrive::open(Watched::of(&image)) {
            Ok(drive) => {
                let vault = vault.unwrap_or_else(|_| panic!("{name}"));
                assert_eq!((drive.sectors, drive.get_ref().gave.len() as u64), (vault.sectors, vault.sectors), "{name}");
                assert_eq!(format!("{:?}", drive.value).replace("CountedDrive", "Counted"), format!("{:?}", vault.value), "{name}");
                assert_eq!(drive.label().map(|label| label.value), vault.label().map(|label| label.value), "{name}");
                opened += 1;
            }
            Err(unopened) => {
                assert_eq!(Err(unopened.refused), vault.map(|_| ()), "{name}");
                let missing = u64::from(unopened.missed.is_some());
                assert_eq!(unopened.reader.gave.len() as u64, unopened.refused.sectors - missing, "{name}");
                assert_eq!(unopened.refused.may_pass(), missing == 1, "{name}");
            }
        }
    }
    assert!(opened > 30, "{opened}");
}

#[test]
fn stored_volumes_answer_as_from_memory() {
    let mut asked = 0;
    for Image { bytes: image, queries, .. } in images("directories") {
        let Ok(vault) = Counted::open(&image) else { continue };
        let mut drive = drive(&image);
        for q in queries {
            if q.has(Call::Label) {
                assert_eq!(drive.label().map(|label| label.value), vault.label().map(|label| label.value));
                asked += 1;
            }
            if q.has(Call::Lookup) {
                same_path(&mut drive, &vault, &q.text);
                asked += 1;
            }
            if q.has(Call::Read) {
                same_icb(&mut drive, &vault, LongAd::parse(&q.icb).unwrap());
                asked += 1;
            }
        }
    }
    assert!(asked > 900, "{asked}");
}

/// A disc with one file, whose descriptors stand in two continuations behind its entry, and the file's ICB.
fn chained() -> (Vec<u8>, LongAd) {
    let mut disc = TestDisc::new();
    let data = disc.lay(&noise(700 * SECTOR));
    let ads = |from: u32, n: u32| (from..from + n).flat_map(|i| short_ad(SECTOR - 3, data + i)).collect::<Vec<u8>>();
    let last = continuation(&[ads(402, 297), short_ad(10 * SECTOR, data).to_vec()].concat());
    let last_at = disc.lay(&last);
    let middle = continuation(&[ads(2, 400), continued(last.len(), last_at).to_vec()].concat());
    let middle_at = disc.lay(&middle);
    let area = [ads(0, 2), continued(middle.len(), middle_at).to_vec()].concat();
    let block = disc.entry(0, &area, 699 * (SECTOR as u64 - 3) + 9 * SECTOR as u64 + 7);
    let root = disc.directory(&[named("file", block, false)]);
    disc.root(root);
    let icb = Counted::open(&disc.0).unwrap().lookup("file").unwrap().value;
    (disc.0, icb)
}

#[test]
fn a_sector_is_asked_for_once_and_none_in_vain() {
    let (image, icb) = chained();
    let read = Counted::open(&image).unwrap().read_file(icb).unwrap();
    let mut drive = CountedDrive::open(Watched::of(&image)).unwrap();
    assert_eq!(drive.read_file(icb).unwrap(), read);
    let (opened, gave) = (drive.sectors as usize, &drive.get_ref().gave);
    assert_eq!((gave.len() - opened) as u64, read.sectors);
    // The entry, two sectors of each continuation, 699 extents, and of the last ten sectors those up to the information length.
    assert_eq!(read.sectors, 1 + 2 + 2 + 699 + 10);
    let last = &gave[gave.len() - 10..];
    assert!(last.iter().zip(last[0]..).all(|(sector, n)| *sector == n));
    // A sector less is wanted, and it isn't asked for, though the extent has it.
    let mut shorter = image.clone();
    let entry = Counted::open(&image).unwrap().icb_sector(icb).unwrap() as usize * SECTOR;
    shorter[entry + 56..][..8].copy_from_slice(&(699 * (SECTOR as u64 - 3) + 9 * SECTOR as u64).to_le_bytes());
    let mut drive = CountedDrive::open(Watched::of(&shorter)).unwrap();
    assert_eq!(drive.read_file(icb).unwrap().sectors, read.sectors - 1);
    assert_eq!((drive.get_ref().gave.len() - opened) as u64, read.sectors - 1);
}

#[test]
fn the_reader_is_not_moved_where_it_stands() {
    let mut disc = TestDisc::new();
    let bytes = noise(100 * SECTOR);
    let block = disc.file(&bytes);
    let root = disc.directory(&[named("file", block, false)]);
    disc.root(root);
    let mut drive = CountedDrive::open(Watched::of(&disc.0)).unwrap();
    let icb = drive.lookup("file").unwrap();
    let before = (drive.get_ref().seeks, drive.get_ref().reads);
    assert_eq!(drive.read_file(icb).unwrap().value, bytes);
    // To the entry, and to the extent's first sector, whose hundred are read by four reads.
    assert_eq!((drive.get_ref().seeks - before.0, drive.get_ref().reads - before.1), (2, 5));
}

#[test]
fn a_reader_that_gives_few_bytes_at_a_time() {
    let (image, icb) = chained();
    let vault = Counted::open(&image).unwrap();
    for few in [1, 7, 2047, 2048, 2049, 5000] {
        let mut drive = CountedDrive::open(Watched { few, ..Watched::of(&image) }).unwrap();
        assert_eq!(drive.read_path("FILE"), vault.read_path("FILE"), "{few}");
        assert_eq!(drive.read_file(icb), vault.read_file(icb), "{few}");
    }
}

#[test]
fn a_reader_that_fails_at_each_place() {
    let (image, icb) = chained();
    let vault = Counted::open(&image).unwrap();
    let read = vault.read_file(icb).unwrap();
    let mut good = CountedDrive::open(Watched::of(&image)).unwrap();
    good.read_file(icb).unwrap();
    let (list, opened) = (&good.get_ref().gave, vault.sectors as usize);
    for (place, sector) in list.iter().copied().enumerate() {
        let reader = Watched { bad: Some(place), ..Watched::of(&image) };
        let mut drive = match CountedDrive::open(reader) {
            Ok(drive) => drive.value,
            Err(unopened) => {
                assert!(place < opened);
                assert_eq!((unopened.refused.why, unopened.refused.sectors), (Refusal::Io, place as u64 + 1));
                let missed = unopened.missed.as_ref().unwrap();
                assert_eq!((missed.sector, missed.error.to_string().as_str()), (sector, "a scratch"));
                assert_eq!(unopened.to_string(), format!("can't read sector {sector}: a scratch"));
                continue;
            }
        };
        let mut to = Vec::new();
        let refused = match drive.copy_file(icb, &mut to) {
            Err(Uncopied::Refused { refused, written }) if written == to.len() as u64 => refused,
            other => panic!("{other:?}"),
        };
        assert_eq!((refused.why, refused.sectors), (Refusal::Io, (place - opened) as u64 + 1));
        let missed = drive.missed().unwrap();
        assert_eq!((missed.sector, missed.error.to_string().as_str()), (sector, "a scratch"));
        // What had arrived is the front of the file.
        assert!(read.starts_with(&to), "{place}");
        let again = drive.read_file(icb);
        assert_eq!(number_and_count(&again), (1, 1));
    }
}

#[test]
fn a_drive_goes_on_behind_a_failure() {
    let (image, icb) = chained();
    let mut drive = CountedDrive::open(Cursor::new(&image[..])).unwrap();
    let read = drive.read_file(icb).unwrap();
    // An ICB beyond the end, between two reads.
    let beyond = LongAd { location: LbAddr { block: 1 << 31, partition_ref: 5 }, ..icb };
    assert_eq!(number_and_count(&drive.read_file(beyond)), (1, 1));
    assert_eq!(drive.missed().unwrap().error.kind(), io::ErrorKind::UnexpectedEof);
    assert_eq!(drive.missed().unwrap().sector, drive.partition_start_sector() + (1 << 31));
    assert_eq!(drive.read_file(icb).unwrap(), read);
    assert!(drive.missed().is_none());
}

/// Each byte is looked at once, so that the answer is that of the disc as it was at first.
#[test]
fn a_reader_that_changes() {
    let (image, icb) = chained();
    let vault = Counted::open(&image).unwrap();
    let mut drive = CountedDrive::open(Watched { changes: true, ..Watched::of(&image) }).unwrap();
    assert_eq!(drive.sectors, vault.sectors);
    // The sectors of the last extent stand in the first ones too, and are other bytes by then.
    let (read, first) = (drive.read_file(icb).unwrap(), vault.read_file(icb).unwrap());
    let twice = first.len() - (9 * SECTOR + 7);
    assert_eq!((read.sectors, &read[..twice]), (first.sectors, &first[..twice]));
    assert!(read[twice..].iter().zip(&first[twice..]).all(|(one, other)| one ^ 0x55 == *other));
}

#[test]
fn a_length_on_the_disc_allocates_nothing() {
    let mut disc = TestDisc::new();
    let data = disc.lay(&noise(5000));
    let absurd = disc.entry(0, &short_ad(5000, data), u64::MAX);
    let root = disc.directory(&[named("absurd", absurd, false)]);
    disc.root(root);
    let read = drive(&disc.0).read_path("absurd").unwrap();
    assert_eq!(read.value, noise(5000));
    assert!(read.value.capacity() < 1 << 20);
}

/// A file of more bytes than its disc, and more than 256 MiB, whose extents overlap.
#[test]
fn a_file_beyond_its_disc_is_refused() {
    let mut disc = TestDisc::new();
    let data = disc.lay(&noise(4 << 20));
    let area: Vec<u8> = (0..65).flat_map(|_| short_ad(4 << 20, data)).collect();
    let block = disc.entry(0, &area, 65 * (4 << 20));
    let directory = disc.entry(0, &area, 65 * (4 << 20));
    let root = disc.directory(&[named("file", block, false), named("directory", directory, true)]);
    disc.root(root);
    let (mut drive, vault) = (drive(&disc.0), Counted::open(&disc.0).unwrap());
    let (ours, other) = (drive.read_path("file").map(|_| ()), vault.read_path("file").map(|_| ()));
    assert_eq!((ours.as_ref().unwrap_err().why, other.unwrap_err().why), (Refusal::NoRoom, Refusal::NoRoom));
    // The root, the entry, 256 MiB and the sector that has no room.
    assert_eq!(ours.unwrap_err().sectors, 2 + 1 + (256 << 20) / 2048 + 1);
    assert_eq!(drive.lookup("directory/x").unwrap_err().why, Refusal::NoWork);
    let icb = drive.lookup("file").unwrap();
    assert_eq!(drive.copy_file(icb, &mut io::sink()).unwrap().value, 65 * (4 << 20));
}

/// As many extents as a continuation can have, so that the row is lengthened again and again.
#[test]
fn many_extents() {
    let mut disc = TestDisc::new();
    let data = disc.lay(&noise(SECTOR));
    let many = ((1 << 20) - 24) / 8;
    let area: Vec<u8> = (0..many).flat_map(|i| short_ad(1 + i % 3, data)).collect();
    let chain = continuation(&area);
    assert_eq!(chain.len(), 1 << 20);
    let at = disc.lay(&chain);
    let block = disc.entry(0, &continued(chain.len(), at), u64::MAX);
    let root = disc.directory(&[named("file", block, false)]);
    disc.root(root);
    let read = Counted::open(&disc.0).unwrap().read_path("file").unwrap();
    assert_eq!(read.sectors, 2 + 1 + 512 + many as u64);
    assert_eq!(drive(&disc.0).read_path("file").unwrap(), read);
}

/// A writer that takes so many bytes.
struct Full(usize);

impl Write for Full {
    fn write(&mut self, bytes: &[u8]) -> io::Result<usize> {
        self.0 = self.0.checked_sub(bytes.len()).ok_or(io::ErrorKind::StorageFull)?;
        Ok(bytes.len())
    }

    fn flush(&mut self) -> io::Result<()> {
        Ok(())
    }
}

#[test]
fn a_writer_that_fails() {
    let (image, icb) = chained();
    let mut drive = drive(&image);
    let length = drive.read_file(icb).unwrap().len();
    assert_eq!(drive.copy_file(icb, &mut Full(length)).unwrap().value, length as u64);
    for room in [0, 1, 100_000, length - 1] {
        let failed = drive.copy_file(icb, &mut Full(room)).unwrap_err();
        assert!(matches!(&failed, Uncopied::Output(error) if error.kind() == io::ErrorKind::StorageFull), "{failed}");
    }
    assert_eq!(drive.read_file(icb).unwrap().len(), length);
}

// ---- the command

fn with_show() -> Folder {
    let folder = Folder::new();
    folder.write("show.img", &show());
    folder
}

/// What is asked of a drive is answered as it is of a map, and so is what can't be answered.
#[test]
fn the_command_answers_from_a_drive() {
    let folder = with_show();
    for words in [
        &["label", "show.img"][..],
        &["ls", "show.img"],
        &["ls", "show.img", "/SHOW/"],
        &["ls", "show.img", "SHOW/9"],
        &["ls", "-R", "show.img"],
        &["tree", "show.img"],
        &["tree", "show.img", "--levels", "1"],
        &["cat", "show.img", "SHOW/11"],
        &["cat", "show.img", "show/10.1a"],
        &["cat", "show.img", "SHOW/10.1a", "--as-written"],
        &["cat", "show.img", "SHOW/10.1a", "--unambiguous"],
        &["cat", "show.img", "SHOW/12"],
        &["cat", "show.img", "SHOW"],
        &["cat", "show.img", "show/9", "--as-written"],
        &["cat", "none.img", "SHOW/9"],
        &["cat", ".", "SHOW/9"],
        &["get", "show.img", "SHOW/11", "."],
    ] {
        let mapped = folder.vault(words);
        let driven = folder.vault(&[words, &["--drive"]].concat());
        assert_eq!((driven.status, &driven.out, &driven.error), (mapped.status, &mapped.out, &mapped.error), "{words:?}");
    }
    let said = folder.vault(&["get", "show.img", "SHOW/11", "cue", "--drive", "--sectors"]);
    let sectors = "vault: sectors asked for: open 6, lookup 2, read_directory 1, read_directory 1, read_file 2\n";
    assert_eq!((said.status, said.out.as_str(), said.error.as_str()), (0, "", sectors));
    assert_eq!(std::fs::read_to_string(folder.at("cue")).unwrap(), "cue 11\nblackout\n");
    assert_eq!(folder.names(), ["cue", "show.img"]);
    let stat = "label    SHOW 1\nstart    sector 288, partition 5\nroot     block 3, partition 5, 2048 bytes, type 0\nsectors  open 6\n";
    assert_eq!(folder.vault(&["stat", "show.img", "--drive"]).out, stat);
    let stat = "path     SHOW/11\nentry    11\nkind     file\nicb      block 11, partition 5, 2048 bytes, type 0\n\
                length   16 bytes, as its entry says\nsectors  open 6, lookup 2, read_directory 1, read_directory 1\n";
    assert_eq!(folder.vault(&["stat", "show.img", "SHOW/11", "--drive"]).out, stat);
}

#[test]
fn the_command_says_which_sector_is_missing() {
    let folder = with_show();
    let image = show();
    folder.write("none.img", &[]);
    folder.write("cut.img", &image[..300 * SECTOR]);
    let said = folder.vault(&["ls", "none.img", "--drive", "--sectors"]);
    let missing =
        "vault: sectors asked for: open 1\nvault: none.img: sector 256 is missing: the disc or image ends before it (refusal 1)\n";
    assert_eq!((said.status, said.error.as_str()), (1, missing));
    // The cue's entry is block 11, and its bytes would stand in the next.
    let said = folder.vault(&["get", "cut.img", "SHOW/11", "cue", "--drive"]);
    let missing = "vault: cut.img: \"SHOW/11\": sector 300 is missing: the disc or image ends before it (refusal 1)\n";
    assert_eq!((said.status, said.out.as_str(), said.error.as_str()), (1, "", missing));
    assert_eq!(folder.names(), ["cut.img", "none.img", "show.img"]);
}

/// A file of many windows, and one whose last sector isn't there: what arrived is written to standard output, and `get` leaves nothing behind.
#[test]
fn the_command_streams() {
    let folder = Folder::new();
    let (mut disc, bytes) = (TestDisc::new(), noise((3 << 20) + 5));
    let block = disc.file(&bytes);
    let entry = disc.entry(0, &short_ad(4 * SECTOR, block + 1), 4 * SECTOR as u64);
    let root = disc.directory(&[named("file", block, false), named("cut", entry, false)]);
    disc.root(root);
    let front = (288 + block as usize + 1) * SECTOR;
    let whole = disc.0[front..].to_vec();
    folder.write("a.img", &disc.0);
    let said = folder.vault(&["cat", "a.img", "file", "--drive"]);
    assert_eq!((said.status, said.bytes == bytes, said.error.as_str()), (0, true, ""));
    let said = folder.vault(&["get", "a.img", "file", "file", "--drive"]);
    assert_eq!((said.status, std::fs::read(folder.at("file")).unwrap() == bytes), (0, true), "{said:?}");
    assert!(whole.len() < 4 * SECTOR);
    let said = folder.vault(&["cat", "a.img", "cut", "--drive"]);
    assert_eq!((said.status, said.bytes == whole), (1, true), "{said:?}");
    let said = folder.vault(&["get", "a.img", "cut", "cut", "--drive"]);
    assert_eq!((said.status, folder.names()), (1, vec!["a.img".to_string(), "file".to_string()]), "{said:?}");
}

#[test]
fn a_pipe_is_no_drive() {
    let folder = with_show();
    let Some(sh) = tool("sh") else { return left_out("a_pipe_is_no_drive", "sh") };
    let words = ["-c", "\"$0\" ls /dev/stdin --drive < show.img; cat show.img | \"$0\" ls /dev/stdin --drive", env!("CARGO_BIN_EXE_vault")];
    let said = Said::of(Command::new(sh).args(words).current_dir(folder.at("")).output().unwrap());
    let error = "vault: /dev/stdin: not a file or device (a pipe?): use --copy to read it into memory\n";
    assert_eq!((said.status, said.out.as_str(), said.error.as_str()), (66, "SHOW/\n", error));
}
