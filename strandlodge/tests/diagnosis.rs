//! Where a call was refused, and which cause it had: of every stored volume, and of each cause.

mod common;

use common::asked::images;
use common::command::Folder;
use common::{SECTOR, TestDisc, VOLUME_BODY, continuation, continued, named, reclosed, seal, short_ad, show};
use std::cell::Cell;
use std::error;
use std::io::{self, Cursor, Read, Seek, SeekFrom};
use std::rc::Rc;
use strandlodge::udf::{ExtAd, TagId};
use strandlodge::{Asked, Cause, Counted, CountedDrive, Diagnosis, Drive, How, Kind, LbAddr, LongAd, Matching, Refusal, Refused};
use strandlodge::{Disc, Sought, Standing, UNLIMITED, diagnose};
use strandlodge_sys::asked::{Call, Image};

/// A reader that notes the last sector that it was asked for, from a single-sector buffer on.
struct Watched {
    inner: Cursor<Vec<u8>>,
    last: Rc<Cell<u64>>,
}

impl Watched {
    fn of(image: &[u8]) -> (Watched, Rc<Cell<u64>>) {
        let last = Rc::new(Cell::new(u64::MAX));
        (Watched { inner: Cursor::new(image.to_vec()), last: last.clone() }, last)
    }
}

impl Read for Watched {
    fn read(&mut self, to: &mut [u8]) -> io::Result<usize> {
        let room = to.len().min(SECTOR);
        self.last.set(self.inner.position() / SECTOR as u64);
        self.inner.read(&mut to[..room])
    }
}

impl Seek for Watched {
    fn seek(&mut self, to: SeekFrom) -> io::Result<u64> {
        self.inner.seek(to)
    }
}

/// What a diagnosis must have whatever was refused: a place that says what stands there, and of 4 a cause.
fn sound(why: &Diagnosis, image: &[u8], about: &str) {
    if let Some(place) = why.place {
        let bytes = image.get(place.sector as usize * SECTOR..).and_then(|rest| rest.get(..SECTOR));
        let standing = match (bytes, place.standing) {
            (None, standing) => standing == Standing::Missing,
            (Some(bytes), Standing::Zeros) => bytes.iter().all(|byte| *byte == 0),
            (Some(bytes), Standing::Tagged(tag)) => (tag.id as u16).to_le_bytes() == bytes[..2],
            (Some(_), standing) => standing == Standing::Untagged,
        };
        assert!(standing, "{about}: {why:?}");
    }
    assert_eq!(why.refused.why == Refusal::Io, why.place.is_some_and(|place| place.standing == Standing::Missing), "{about}: {why:?}");
    assert!(why.refused.why != Refusal::Unsupported || why.cause.is_some(), "{about}: {why:?}");
}

#[test]
fn stored_volumes_that_are_not_opened() {
    let mut refusals = [0; 15];
    for Image { name, bytes: image, .. } in images("volumes") {
        let (reader, last) = Watched::of(&image);
        let Err(mut unopened) = CountedDrive::open(reader) else { continue };
        let last = last.get();
        let why = unopened.diagnose();
        assert_eq!(why, diagnose(&image, How::default(), &unopened.refused), "{name}");
        assert_eq!(why.place.map(|place| place.sector), Some(last), "{name}");
        assert!(unopened.refused.why != Refusal::NotBluray || matches!(why.cause, Some(Cause::NoDescriptor(_))), "{name} {why:?}");
        sound(&why, &image, &name);
        refusals[why.refused.number() as usize] += 1;
        // By every choice, of which none but the first is there for a drive.
        for choices in 1..8 {
            let how = How { highest: choices & 1 != 0, checked: choices & 2 != 0, maps: choices & 4 != 0 };
            let Err(refused) = Counted::open_as(&image, how) else { continue };
            let why = diagnose(&image, how, &refused);
            assert!(why.place.is_some(), "{name} {how:?} {why:?}");
            says_why(Disc::open_as(&image, how), &why, &name);
            sound(&why, &image, &name);
        }
    }
    assert!(refusals[1] > 3 && refusals[2] > 10 && refusals[3] > 2 && refusals[4] > 2, "{refusals:?}");
}

/// What `Disc` says of a refusal is what a diagnosis says, whether or not it is asked for one.
fn says_why<T>(given: strandlodge::Result<T>, why: &Diagnosis, about: &str) {
    let error = given.map(|_| ()).unwrap_err();
    assert_eq!((error.refused(), error.cause()), (why.refused, why.cause.as_ref()), "{about}");
    assert_eq!((error.to_string(), error::Error::source(&error).is_some()), (why.what(), why.cause.is_some()), "{about}");
}

/// The same call on a drive, and how it was refused.
type Again<'a> = &'a dyn Fn(&mut CountedDrive<Watched>) -> Option<Refused>;

#[test]
fn stored_volumes_whose_files_are_not_read() {
    let mut refusals = [0; 15];
    for Image { name, bytes: image, queries, .. } in images("directories") {
        let Ok(vault) = Counted::open(&image) else { continue };
        let plain = Disc::open(&image).unwrap();
        let (reader, last) = Watched::of(&image);
        let mut drive = CountedDrive::open(reader).unwrap().value;
        let mut hold = |asked: Asked, refused: Option<Refused>, again: Again| {
            let Some(refused) = refused else { return };
            last.set(u64::MAX);
            assert_eq!(again(&mut drive), Some(refused), "{name}");
            let sector = Some(last.get()).filter(|last| *last != u64::MAX);
            let why = vault.diagnose(asked, &refused);
            assert_eq!((&why, why.place.map(|place| place.sector)), (&drive.diagnose(&refused), sector), "{name} {asked:?}");
            sound(&why, &image, &name);
            match asked {
                Asked::Lookup(path, by) => says_why(plain.lookup_as(path, by), &why, &name),
                Asked::ReadPath(path, by) => says_why(plain.read_path_as(path, by), &why, &name),
                Asked::ReadFile(icb) => says_why(plain.read_file(icb), &why, &name),
                Asked::ReadDirectory(icb) => says_why(plain.read_directory(icb), &why, &name),
                Asked::Show(levels) => says_why(plain.show(levels, UNLIMITED), &why, &name),
            }
            refusals[refused.number() as usize] += 1;
        };
        for q in queries {
            if q.has(Call::Lookup) {
                let (path, by) = (&q.text[..], Matching::Unambiguous);
                hold(Asked::Lookup(path, by), vault.lookup_as(path, by).err(), &|d| d.lookup_as(path, by).err());
                hold(Asked::ReadPath(path, by), vault.read_path_as(path, by).err(), &|d| d.read_path_as(path, by).err());
            }
            if q.has(Call::Read) {
                let icb = LongAd::parse(&q.icb).unwrap();
                hold(Asked::ReadFile(icb), vault.read_file(icb).err(), &|d| d.read_file(icb).err());
                hold(Asked::ReadDirectory(icb), vault.read_directory(icb).err(), &|d| d.read_directory(icb).err());
                if let (Err(refused), Err(read)) = (vault.extents(icb), vault.read_file(icb)) {
                    assert_eq!(vault.diagnose(Asked::ReadFile(icb), &refused).place, vault.diagnose(Asked::ReadFile(icb), &read).place);
                }
            }
        }
    }
    assert!([1, 2, 3, 4].iter().all(|number| refusals[*number] > 10), "{refusals:?}");
}

/// The sample show with another volume descriptor: bytes at places of a sector, summed again.
fn with(sector: usize, fields: &[(usize, &[u8])]) -> Vec<u8> {
    let mut image = show();
    let whole = &mut image[sector * SECTOR..][..SECTOR];
    fields.iter().for_each(|(at, bytes)| whole[*at..][..bytes.len()].copy_from_slice(bytes));
    seal(whole, VOLUME_BODY);
    image
}

fn unopened(image: &[u8], how: How) -> Diagnosis {
    let refused = Counted::open_as(image, how).unwrap_err();
    diagnose(image, how, &refused)
}

/// The sample show, in which the logical volume descriptor has these maps.
fn mapped(maps: u32, table: &[u8]) -> Vec<u8> {
    with(34, &[(264, &(table.len() as u32).to_le_bytes()), (268, &maps.to_le_bytes()), (440, table)])
}

const MAPS: How = How { highest: false, checked: false, maps: true };

#[test]
fn each_cause_of_an_opening() {
    let plain = |number: u8| [1, 6, 1, 0, number, 0];
    let (kind, identifier) = (2, "*UDF Metadata Partition".to_string());
    let mut metadata = [&plain(5)[..], &[2, 64, 0, 0, 0], identifier.as_bytes()].concat();
    metadata.resize(70, 0);
    let in_map_1 = |mut image: Vec<u8>| {
        image[34 * SECTOR + 256..][..2].copy_from_slice(&[1, 0]);
        seal(&mut image[34 * SECTOR..], VOLUME_BODY);
        image
    };
    for (image, how, cause) in [
        (with(34, &[(212, &512u32.to_le_bytes())]), How::default(), Cause::BlockSize(512)),
        (with(34, &[(212, &0u32.to_le_bytes())]), MAPS, Cause::BlockSize(0)),
        (with(33, &[(22, &[6, 0])]), How::default(), Cause::Reference { reference: 5, partition: 6 }),
        (mapped(5, &plain(5).repeat(5)), MAPS, Cause::ManyMaps(5)),
        (mapped(2, &metadata), MAPS, Cause::MapKind { map: 1, kind, identifier: identifier.clone() }),
        (in_map_1(mapped(2, &metadata)), How::default(), Cause::MapKind { map: 1, kind, identifier }),
        (mapped(2, &[plain(5), plain(7)].concat()), MAPS, Cause::NoPartition { map: 1, number: 7 }),
        (mapped(1, &plain(5)), MAPS, Cause::NoMap { reference: 5, maps: 1 }),
        (show(), MAPS, Cause::NoMap { reference: 5, maps: 0 }),
        (with(32, &[(0, &[7, 0])]), How::default(), Cause::NoDescriptor(Kind::PrimaryVolume)),
        (with(33, &[(0, &[7, 0])]), How::default(), Cause::NoDescriptor(Kind::Partition)),
        (with(34, &[(0, &[7, 0])]), MAPS, Cause::NoDescriptor(Kind::LogicalVolume)),
    ] {
        let why = unopened(&image, how);
        assert_eq!(why.cause.as_ref(), Some(&cause), "{why:?}");
        let place = why.place.unwrap();
        assert_eq!((place.sector, place.sought), (35, Sought::VolumeDescriptor), "{cause:?}");
        assert!(
            why.to_string().starts_with(&format!("{cause}; the last sector asked for was 35, for a volume descriptor: it has tag 8 ("))
        );
        if how == How::default() {
            assert_eq!(CountedDrive::open(Cursor::new(image)).unwrap_err().diagnose(), why);
        }
    }
}

/// An anchor for this sector, by itself in an image of zeros.
fn anchored(sectors: usize, at: usize, location: u32) -> Vec<u8> {
    let mut image = vec![0; sectors * SECTOR];
    image[at * SECTOR..][..SECTOR].copy_from_slice(&show()[256 * SECTOR..][..SECTOR]);
    image[at * SECTOR + 12..][..4].copy_from_slice(&location.to_le_bytes());
    seal(&mut image[at * SECTOR..], VOLUME_BODY);
    image
}

#[test]
fn a_disc_of_another_block_size_is_called_by_it() {
    let folder = Folder::new();
    for (size, sector, sectors) in [(512, 64, 100), (512, 64, 1000), (1024, 128, 129), (1024, 128, 1000), (4096, 512, 513)] {
        let image = anchored(sectors, sector, 256);
        let why = unopened(&image, How::default());
        assert_eq!(why.cause, Some(Cause::BlockSize(size)));
        assert_eq!(why.refused.why, if sectors > 256 { Refusal::Malformed } else { Refusal::Io });
        folder.write("a.img", &image);
        for words in [&["ls", "a.img"][..], &["label", "a.img"], &["ls", "--drive", "a.img"], &["check", "a.img"], &["info", "a.img"]] {
            let said = folder.vault(words);
            let says = format!("vault: a.img: the disc has blocks of {size} bytes; only 2048 is supported (refusal ");
            assert!(said.error.starts_with(&says) && !said.error.contains("damaged"), "{words:?} {said:?}");
            assert_eq!(said.status, why.refused.number() as i32);
        }
        // Where the location is another it is some other anchor, or none.
        assert_eq!(unopened(&anchored(sectors, sector, 255), How::default()).cause, None);
    }
    for at in [999, 743] {
        assert_eq!(unopened(&anchored(1000, at, at as u32), How::default()).cause, Some(Cause::AnchorAt(at as u64)));
    }
    assert_eq!(unopened(&vec![0; 1000 * SECTOR], How::default()).cause, None);
    assert_eq!(unopened(&[], How::default()).place.unwrap().standing, Standing::Missing);
}

#[test]
fn the_file_set_is_found_by_the_choices() {
    // Without its file set, by the newer partition descriptor and by the older.
    let image = &reclosed()[..290 * SECTOR];
    let sector = |how| unopened(image, how).place.map(|place| (place.sector, place.sought));
    assert_eq!(sector(How { highest: true, ..How::default() }), Some((290, Sought::FileSet)));
    let mut older = reclosed();
    older[35 * SECTOR + 188..][..4].copy_from_slice(&90_000u32.to_le_bytes());
    seal(&mut older[35 * SECTOR..], VOLUME_BODY);
    assert_eq!(unopened(&older, How::default()).place.map(|place| place.sector), Some(90_002));
    // A body that is wrong, of each descriptor that is parsed, and one by the maps.
    let checked = How { checked: true, ..How::default() };
    for (at, sought) in [(256, Sought::Anchor), (33, Sought::VolumeDescriptor), (290, Sought::FileSet)] {
        let mut image = show();
        image[at * SECTOR + 60] ^= 1;
        let why = unopened(&image, checked);
        assert_eq!((why.refused.why, why.place.map(|place| (place.sector, place.sought))), (Refusal::BadCrc, Some((at as u64, sought))));
    }
    let mut image = mapped(1, &[1, 6, 1, 0, 5, 0]);
    image[34 * SECTOR + 256..][..2].copy_from_slice(&[0, 0]);
    seal(&mut image[34 * SECTOR..], VOLUME_BODY);
    assert!(Counted::open_as(&image, MAPS).is_ok());
    image.truncate(289 * SECTOR);
    assert_eq!(unopened(&image, MAPS).place.map(|place| (place.sector, place.standing)), Some((290, Standing::Missing)));
}

fn ext_ad(recorded: u32, partition_ref: u16) -> Vec<u8> {
    let location = LbAddr { block: 12, partition_ref };
    let (length, information_length) = (2048, 100);
    ExtAd { length, extent_type: 0, recorded_length: recorded, information_length, location, implementation_use: [0; 2] }.encode().to_vec()
}

fn long(length: u32, extent_type: u8, block: u32, partition_ref: u16) -> Vec<u8> {
    LongAd { length, extent_type, location: LbAddr { block, partition_ref }, implementation_use: [0; 6] }.encode().to_vec()
}

#[test]
fn each_cause_of_a_read() {
    let hole = |extent_type: u32| short_ad(500 | (extent_type as usize) << 30, 12).to_vec();
    let (compressed, elsewhere) =
        (Cause::Compressed { block: 12, recorded: 99, information: 100 }, Cause::Reference { reference: 6, partition: 5 });
    for (kind, area, cause, sought) in [
        (0, hole(1), Cause::NotRecorded { extent_type: 1, length: 500 }, Sought::Entry),
        (0, hole(2), Cause::NotRecorded { extent_type: 2, length: 500 }, Sought::Entry),
        (0, [short_ad(16, 12).to_vec(), hole(1)].concat(), Cause::NotRecorded { extent_type: 1, length: 500 }, Sought::Bytes),
        (1, long(500, 0, 12, 6), elsewhere.clone(), Sought::Entry),
        (1, long(500, 3, 12, 6), elsewhere.clone(), Sought::Entry),
        (2, ext_ad(100, 6), elsewhere, Sought::Entry),
        (2, [ext_ad(100, 5), ext_ad(99, 5)].concat(), compressed, Sought::Entry),
        (0, continued((1 << 20) + 1, 12).to_vec(), Cause::LongContinuation((1 << 20) + 1), Sought::Entry),
    ] {
        let mut disc = TestDisc::new();
        let block = disc.entry(kind, &area, 1000);
        let root = disc.directory(&[named("file", block, false), named("folder", block, true)]);
        disc.root(root);
        let vault = Disc::open(disc.0.clone()).unwrap();
        let icb = vault.lookup("file").unwrap();
        let refused = vault.read_file(icb).unwrap_err();
        let why = vault.diagnose(Asked::ReadFile(icb), &refused);
        assert_eq!((why.refused.why, why.cause.as_ref()), (Refusal::Unsupported, Some(&cause)), "{why:?}");
        assert_eq!(why.place.map(|place| place.sought), Some(sought), "{why:?}");
        by_every_call(&vault, &why);
        let is_read = matches!(cause, Cause::NotRecorded { .. }) || kind == 1 && area[3] >> 6 == 0 || kind == 2 && area.len() == 20;
        by_every_command(&disc.0, &why, if is_read { 1 } else { 2 });
    }
}

/// The same along a path, in a show, and from a drive.
fn by_every_call(vault: &Disc<Vec<u8>>, why: &Diagnosis) {
    let (why, matching) = (why.to_string(), Matching::AsWritten);
    let refused = vault.read_path_as("file", matching).unwrap_err();
    assert_eq!(vault.diagnose(Asked::ReadPath(b"file", matching), &refused).to_string(), why);
    let refused = vault.lookup_as("folder/x", matching).unwrap_err();
    assert_eq!(vault.diagnose(Asked::Lookup(b"folder/x", matching), &refused).to_string(), why);
    let refused = vault.show(16, UNLIMITED).unwrap_err();
    assert_eq!(vault.diagnose(Asked::Show(16), &refused).to_string(), why);
    let mut drive = Drive::open(Cursor::new(vault.image().to_vec())).unwrap();
    let refused = drive.read_path("file").unwrap_err();
    assert_eq!(drive.diagnose(&refused).to_string(), why);
}

/// And by every command; `unread` of the file and the folder, which have one entry, are told of by check: a file whose entry and chain are read isn't read
/// by it, and a directory is.
fn by_every_command(image: &[u8], why: &Diagnosis, unread: usize) {
    let folder = Folder::new();
    folder.write("a.img", image);
    std::fs::create_dir(folder.at("to")).unwrap();
    for words in [
        &["cat", "a.img", "file"][..],
        &["cat", "a.img", "file", "--drive"],
        &["get", "a.img", "file", "to/file"],
        &["get", "a.img", "-o", "to", "file"],
        &["get", "-r", "a.img", "-o", "to"],
        &["ls", "a.img", "folder"],
        &["tree", "a.img"],
    ] {
        let said = folder.vault(words);
        assert!(said.error.contains(&format!(": {} (refusal 4); {}\n", why.what(), why.place.unwrap())), "{words:?} {said:?}");
    }
    let said = folder.vault(&["check", "a.img"]);
    assert_eq!(said.out.matches(&why.what()).count(), unread, "{said:?}");
}

/// A chain: its last continuation has the compressed extent, or one that isn't recorded.
#[test]
fn a_cause_behind_continuations() {
    for (kind, last, cause) in [
        (0, short_ad(7 | 1 << 30, 3).to_vec(), Cause::NotRecorded { extent_type: 1, length: 7 }),
        (2, ext_ad(99, 5), Cause::Compressed { block: 12, recorded: 99, information: 100 }),
    ] {
        let mut disc = TestDisc::new();
        let next = |length: usize, block: u32| match kind {
            0 => continued(length, block).to_vec(),
            _ => {
                let location = LbAddr { block, partition_ref: 5 };
                let length = length as u32;
                ExtAd { length, extent_type: 3, recorded_length: 0, information_length: 0, location, implementation_use: [0; 2] }
                    .encode()
                    .to_vec()
            }
        };
        let second = continuation(&last);
        let second_at = disc.lay(&second);
        let first = continuation(&next(second.len(), second_at));
        let first_at = disc.lay(&first);
        let block = disc.entry(kind, &next(first.len(), first_at), 100);
        let root = disc.directory(&[named("file", block, false)]);
        disc.root(root);
        let vault = Disc::open(&disc.0).unwrap();
        let icb = vault.lookup("file").unwrap();
        let why = vault.diagnose(Asked::ReadFile(icb), &vault.read_file(icb).unwrap_err());
        let place = why.place.unwrap();
        assert_eq!((why.cause.as_ref(), place.sector, place.sought), (Some(&cause), 288 + u64::from(second_at), Sought::Continuation));
        assert!(matches!(place.standing, Standing::Tagged(tag) if tag.id == TagId::AllocationExtent));
    }
}

#[test]
fn what_has_no_place_has_none() {
    let image = show();
    let vault = Disc::open(&image).unwrap();
    let icb = vault.lookup("SHOW/9").unwrap();
    // An ICB of no length: no sector is asked for.
    let empty = LongAd { length: 0, ..icb };
    let why = vault.diagnose(Asked::ReadFile(empty), &vault.read_file(empty).unwrap_err());
    assert_eq!((why.cause, why.place, why.refused.sectors), (Some(Cause::EmptyIcb), None, 0));
    // Memory that is too little is nothing of the disc's.
    for why in [Refusal::NoRoom, Refusal::NoWork, Refusal::NoSlot, Refusal::TooMany, Refusal::Unknown(99)] {
        let refused = Refused { why, sectors: 5 };
        assert_eq!(vault.diagnose(Asked::ReadFile(icb), &refused), Diagnosis { refused, place: None, cause: None });
        assert_eq!(diagnose(&image, How::default(), &refused).to_string(), why.to_string());
    }
    // Another call than the one that was refused.
    let refused = vault.lookup("SHOW/12").unwrap_err();
    assert_eq!(vault.diagnose(Asked::ReadFile(icb), &refused).place, None);
    // A show that is too deep ends in the directory that was listed last; one of no levels asks for nothing.
    let why = vault.diagnose(Asked::Show(1), &vault.show(1, UNLIMITED).unwrap_err());
    assert_eq!((why.refused.why, why.place.map(|place| place.sector)), (Refusal::TooDeep, Some(291)));
    let over = vault.show(2, 1).unwrap_err();
    let why = vault.diagnose(Asked::Show(2), &over);
    assert_eq!((why.to_string().as_str(), why.place, why.cause), ("more sectors would be needed than the budget allows", None, None));
    assert_eq!(vault.diagnose(Asked::Show(17), &vault.show(17, UNLIMITED).unwrap_err()).place, None);
}

/// A reader's own failure is named by it, and what is said of a sector is looked at again.
#[test]
fn a_drive_keeps_what_it_missed() {
    let mut drive = Drive::open(Cursor::new(show()[..300 * SECTOR].to_vec())).unwrap();
    let refused = drive.read_path("SHOW/11").unwrap_err();
    let why = drive.diagnose(&refused);
    assert_eq!(why.place.map(|place| (place.sector, place.sought, place.standing)), Some((300, Sought::Bytes, Standing::Missing)));
    assert_eq!(drive.missed().unwrap().sector, 300);
    // A call that isn't refused leaves its own place.
    drive.read_path("SHOW/9").unwrap();
    assert!(drive.diagnose(&refused).place.unwrap().sector != 300);
}
