//! `Disc` and `Drive` as a console uses them: lines that were written for the original, and the same answers as where the sectors are counted.

mod common;

use common::command::Folder;
use common::show;
use std::collections::HashSet;
use std::io::Cursor;
use std::path::Path;
use std::sync::Arc;
use strandlodge::{Answered, Counted, CountedDrive, DirEntry, Disc, Drive, How, LongAd, Mapped, Matching, Refusal, Refused, Result};
use strandlodge::{UNLIMITED, read_volume_label, read_volume_label_as};

/// The lines that were promised to stand, word for word; and the disc is either kind.
macro_rules! as_they_stood {
    ($disc:ident, $p:expr) => {{
        let icb: LongAd = $disc.lookup("SHOW")?;
        for e in &$disc.read_directory(icb)? {
            if e.name == $p {
                return $disc.read_file(e.icb);
            }
        }
        Ok($disc.read_path($p)?)
    }};
}

#[allow(clippy::needless_question_mark)]
fn from_image(disc: &Disc<Vec<u8>>, p: &str) -> Result<Vec<u8>> {
    as_they_stood!(disc, p)
}

#[allow(clippy::needless_question_mark)]
fn from_reader(disc: &mut Drive<Cursor<Vec<u8>>>, p: &str) -> Result<Vec<u8>> {
    as_they_stood!(disc, p)
}

#[test]
fn the_lines_that_were_promised_stand() {
    let (vault, mut drive) = (Disc::open(show()).unwrap(), Drive::open(Cursor::new(show())).unwrap());
    for p in ["9", "10.1a", "SHOW/11", "none"] {
        assert_eq!(from_image(&vault, p), from_reader(&mut drive, p));
    }
    assert!(from_image(&vault, "10.1a").unwrap().starts_with(b"cue 10.1a\n"));
}

/// As it stood over the original, but for the type of the disc.
#[allow(clippy::needless_question_mark)]
fn load(disc: &mut Drive<Cursor<Vec<u8>>>, cue: &str) -> Result<Vec<u8>> {
    let show: LongAd = disc.lookup("SHOW")?;
    for entry in &disc.read_directory(show)? {
        if entry.name == cue {
            return disc.read_file(entry.icb);
        }
    }
    Ok(disc.read_path(cue)?)
}

/// The same over an image.
#[allow(clippy::needless_question_mark)]
fn load_from(disc: &Disc<impl AsRef<[u8]>>, cue: &str) -> Result<Vec<u8>> {
    let show: LongAd = disc.lookup("SHOW")?;
    let entries: Vec<DirEntry> = disc.read_directory(show)?;
    for entry in &entries {
        if entry.name == cue {
            return disc.read_file(entry.icb);
        }
    }
    for entry in disc.read_directory(disc.root_directory_icb())? {
        assert!(entry.is_directory);
    }
    Ok(disc.read_path(cue)?)
}

#[test]
fn lines_for_the_original_stand() {
    let mut drive = Drive::open(Cursor::new(show())).unwrap();
    let vault = Disc::open(show()).unwrap();
    for cue in ["9", "10.1A", "10.1a", "11", "SHOW/11"] {
        let look = load(&mut drive, cue).unwrap();
        assert_eq!(look, load_from(&vault, cue).unwrap());
        assert!(String::from_utf8(look).unwrap().starts_with("cue "));
    }
    assert_eq!(load(&mut drive, "12").unwrap_err().why, Refusal::NotBluray);
    assert_eq!(load_from(&vault, "12").unwrap_err().why, Refusal::NotBluray);
    let name: String = vault.label().unwrap();
    assert_eq!((name.as_str(), drive.label().unwrap().as_str()), ("SHOW 1", "SHOW 1"));
}

/// A disc that goes from where it is opened to where it is read.
struct Console {
    disc: Disc<Vec<u8>>,
}

#[test]
fn an_image_is_owned_or_borrowed() {
    let image = show();
    let opened = || -> Result<Console> { Ok(Console { disc: Disc::open(show())? }) };
    let console = std::thread::spawn(opened).join().unwrap().unwrap();
    assert!(console.disc.read_path("SHOW/11").unwrap().starts_with(b"cue 11\n"));
    assert_eq!(console.disc.image(), &image[..]);
    assert_eq!(console.disc.into_inner(), image);
    // Borrowed it can be copied.
    let vault = Disc::open(&image).unwrap();
    let (one, other) = (vault, vault);
    assert_eq!(one.lookup("SHOW").unwrap(), other.lookup("SHOW").unwrap());
    let shared: Arc<[u8]> = image.clone().into();
    let vault = Disc::open(shared.clone()).unwrap();
    std::thread::scope(|scope| {
        for cue in ["SHOW/9", "SHOW/11"] {
            let vault = vault.clone();
            scope.spawn(move || assert!(vault.read_path(cue).is_ok()));
        }
    });
    assert_eq!(Disc::open(image.clone().into_boxed_slice()).unwrap().sectors(), 6);
    assert_eq!(Disc::open(&image[..100]).unwrap_err().why, Refusal::Io);
    assert_eq!(Disc::open([0; 0]).unwrap_err().sectors, 1);
    assert!(format!("{vault:?}").starts_with("Disc { partition_start_sector: 288, partition_number: 5, root_directory_icb: "));
}

#[test]
#[allow(unsafe_code)]
fn an_image_may_be_a_map_of_a_file() {
    let folder = Folder::new();
    folder.write("show.img", &show());
    folder.write("empty", b"");
    // SAFETY: nobody else knows these files.
    let map = |name| unsafe { Mapped::open(folder.at(name)) };
    let opened = || -> Result<Disc<Mapped>> { Disc::open(map("show.img").unwrap()) };
    let vault = std::thread::scope(|scope| scope.spawn(opened).join().unwrap()).unwrap();
    assert!(vault.read_path("SHOW/11").unwrap().starts_with(b"cue 11\n"));
    assert_eq!((vault.image().to_vec(), format!("{:?}", vault.into_inner())), (show(), "Mapped { length: 622592, .. }".to_string()));
    assert_eq!((map("empty").unwrap().len(), map("none").unwrap_err().kind()), (0, std::io::ErrorKind::NotFound));
}

/// The value of a counted answer; and a component as text.
fn plain<T>(answered: Answered<T>) -> Result<T> {
    Ok(answered?.value)
}

fn text(answered: Answered<Option<&[u8]>>) -> Result<Option<&str>> {
    plain(answered).map(|part| part.map(|part| std::str::from_utf8(part).unwrap()))
}

/// Every call gives the value, or the refusal, that the counted one gives.
#[test]
fn plain_answers_are_the_counted_ones() {
    let image = show();
    for how in [How::default(), How { checked: true, ..How::default() }, How { highest: true, ..How::default() }] {
        let (vault, counted) = (Disc::open_as(image.clone(), how).unwrap(), Counted::open_as(&image, how).unwrap());
        assert_eq!((vault.sectors(), vault.how(), vault.counted().how()), (counted.sectors, how, how));
        assert_eq!((vault.partition_start_sector(), vault.partition_number()), (288, 5));
        assert_eq!((vault.maps(), vault.root_directory_icb()), (counted.maps(), counted.root_directory_icb()));
        assert_eq!((vault.label(), read_volume_label_as(&image, how)), (Ok("SHOW 1".to_string()), Ok("SHOW 1".to_string())));
        for path in ["", "SHOW", "SHOW/9", "show/10.1a", "SHOW/12", "SHOW/9/x"] {
            assert_eq!(vault.lookup(path), plain(counted.lookup(path)), "{path}");
            assert_eq!(vault.failed(path), text(counted.failed(path)), "{path}");
            assert_eq!(vault.read_path(path), plain(counted.read_path(path)), "{path}");
            for matching in [Matching::CaseIgnored, Matching::AsWritten, Matching::Unambiguous] {
                assert_eq!(vault.lookup_as(path, matching), plain(counted.lookup_as(path, matching)));
                assert_eq!(vault.failed_as(path, matching), text(counted.failed_as(path, matching)));
                assert_eq!(vault.read_path_as(path, matching), plain(counted.read_path_as(path, matching)));
                assert_eq!(vault.read_all_as(&[path], matching), plain(counted.read_all_as(&[path], matching)));
            }
            let Ok(icb) = vault.lookup(path) else { continue };
            assert_eq!(vault.read_file(icb), plain(counted.read_file(icb)));
            assert_eq!(vault.read_directory(icb), plain(counted.read_directory(icb)));
            assert_eq!(vault.extents(icb), plain(counted.extents(icb)));
            assert_eq!(vault.part(icb), plain(counted.part(icb)));
            assert_eq!((vault.icb_sector(icb), vault.sector_of(icb.location)), (counted.icb_sector(icb), counted.sector_of(icb.location)));
            for extent in &vault.extents(icb).unwrap() {
                assert_eq!(vault.extent_sector(icb, extent), counted.extent_sector(icb, extent));
            }
        }
        assert_eq!(vault.read_all(&["SHOW/9", "x"]), plain(counted.read_all(&["SHOW/9", "x"])));
        for levels in [0, 1, 2, 16] {
            let (show, other) = (vault.show(levels, UNLIMITED), counted.show(levels, UNLIMITED));
            assert_eq!(show.map(Iterator::collect::<Vec<_>>), plain(other).map(Iterator::collect::<Vec<_>>));
        }
    }
    assert_eq!(read_volume_label(&image), Ok("SHOW 1".to_string()));
    let cut = Disc::open(&image[..300 * 2048]).unwrap();
    let (icb, counted) = (cut.lookup("SHOW/11").unwrap(), cut.counted());
    let refused = cut.read_file(icb).unwrap_err();
    assert_eq!((cut.missing_sector(icb, &refused), counted.missing_sector(icb, &refused)), (Some(300), Some(300)));
}

#[test]
fn a_drive_s_plain_answers_are_the_counted_ones() {
    let (mut drive, mut counted) = (Drive::open(Cursor::new(show())).unwrap(), CountedDrive::open(Cursor::new(show())).unwrap());
    assert_eq!((drive.sectors(), drive.partition_start_sector(), drive.partition_number()), (counted.sectors, 288, 5));
    assert_eq!((drive.label(), drive.root_directory_icb()), (Ok("SHOW 1".to_string()), counted.root_directory_icb()));
    for path in ["", "SHOW", "SHOW/9", "show/10.1a", "SHOW/12"] {
        assert_eq!(drive.lookup(path), plain(counted.lookup(path)));
        assert_eq!(drive.failed(path), text(counted.failed(path)));
        assert_eq!(drive.read_path(path), plain(counted.read_path(path)));
        for matching in [Matching::AsWritten, Matching::Unambiguous] {
            assert_eq!(drive.lookup_as(path, matching), plain(counted.lookup_as(path, matching)));
            assert_eq!(drive.failed_as(path, matching), text(counted.failed_as(path, matching)));
            assert_eq!(drive.read_path_as(path, matching), plain(counted.read_path_as(path, matching)));
        }
        let Ok(icb) = drive.lookup(path) else { continue };
        assert_eq!(drive.read_file(icb), plain(counted.read_file(icb)));
        assert_eq!(drive.read_directory(icb), plain(counted.read_directory(icb)));
        let mut copy = Vec::new();
        assert_eq!(drive.copy_file(icb, &mut copy).unwrap(), copy.len() as u64);
        assert_eq!(Ok(copy), drive.read_file(icb));
        assert_eq!(drive.counted().read_path(path), counted.read_path(path));
    }
    assert!(drive.missed().is_none() && drive.get_ref().get_ref() == &show() && drive.into_inner().into_inner() == show());
    let cut = Drive::open(Cursor::new(show()[..100_000].to_vec())).unwrap_err();
    assert_eq!((cut.refused.why, cut.missed.unwrap().sector, cut.reader.into_inner().len()), (Refusal::Io, 256, 100_000));
}

/// An answer with its count is taken where its value is.
#[test]
fn a_counted_answer_stands_for_its_value() {
    let image = show();
    let vault = Counted::open(&image).unwrap();
    let entries = vault.read_directory(vault.root_directory_icb()).unwrap();
    for entry in &entries {
        assert_eq!(entry.name, "SHOW");
    }
    let icb: LongAd = vault.lookup("SHOW").unwrap().into();
    assert_eq!(icb, vault.lookup("SHOW").unwrap().value);
}

/// Of a path that is text a component is text, and of bytes it is bytes.
#[test]
fn the_component_that_failed_is_of_the_path_s_kind() {
    let (vault, mut drive) = (Disc::open(show()).unwrap(), Drive::open(Cursor::new(show())).unwrap());
    assert_eq!((vault.failed("SHOW/12").unwrap(), drive.failed("SHOW/12").unwrap()), (Some("12"), Some("12")));
    assert_eq!((vault.failed("SHÖW/12").unwrap(), vault.failed(&"SHOW/é".to_string()).unwrap()), (Some("SHÖW"), Some("é")));
    assert_eq!((vault.failed(b"SHOW/\xff").unwrap(), drive.failed(&b"x/9".to_vec()).unwrap()), (Some(&b"\xff"[..]), Some(&b"x"[..])));
    assert_eq!(vault.failed_as(&"SHOW/10.1b", Matching::AsWritten).unwrap(), Some("10.1b"));
    assert_eq!((vault.failed("SHOW/9").unwrap(), drive.failed(&[0u8; 0][..]).unwrap()), (None, None));
}

/// A cue of a file, as a function had it over the original: `?` takes what the system says too.
fn loaded(file: &Path, cue: &str) -> Result<Vec<u8>> {
    let mut disc = Drive::open(std::fs::File::open(file)?)?;
    let mut copy = Vec::new();
    disc.copy_file(disc.root_directory_icb(), &mut copy)?;
    let vault = Disc::open(std::fs::read(file)?)?;
    let again = strandlodge::write(&[(cue, vault.read_path(cue)?)])?;
    Disc::open(again)?.read_path(cue)
}

#[test]
fn one_error_is_of_refusals_and_of_files() {
    let folder = Folder::new();
    folder.write("show.img", &show());
    folder.write("cut.img", &show()[..9000]);
    folder.write("none.img", &[0; 600_000]);
    let error = |name: &str, cue: &str| loaded(&folder.at(name), cue).unwrap_err();
    let missing = error("no.img", "9");
    assert_eq!((missing.refused(), missing.io().unwrap().kind()), (Refused { why: Refusal::Io, sectors: 0 }, std::io::ErrorKind::NotFound));
    assert_eq!(missing.to_string(), missing.io().unwrap().to_string());
    // What the reader said, and what a number means.
    assert_eq!(error("cut.img", "9").to_string(), "sector 256 is missing: the disc or image ends before it");
    assert_eq!((error("cut.img", "9").number(), error("cut.img", "9").sectors), (1, 1));
    assert_eq!(error("none.img", "9").to_string(), Refusal::Malformed.to_string());
    assert_eq!(error("show.img", "SHOW/12").to_string(), Refusal::NotBluray.to_string());
    assert_eq!(error("show.img", "SHOW/9").why, Refusal::BadName);
    let (refused, why): (Refused, Refusal) = (error("show.img", "x").into(), error("show.img", "x").into());
    assert_eq!((refused.why, why), (Refusal::NotBluray, Refusal::NotBluray));
    assert!(format!("{missing:?}").starts_with("Error { refused: Refused { why: Io, sectors: 0 }, cause: None, error: Some("));
}

#[test]
fn places_can_be_kept_in_a_set() {
    let vault = Disc::open(show()).unwrap();
    let icbs: HashSet<LongAd> = ["SHOW/9", "SHOW/10.1A", "show/10.1a", "SHOW/9"].iter().map(|path| vault.lookup(path).unwrap()).collect();
    assert_eq!(icbs.len(), 2);
    let entries: HashSet<DirEntry> = vault.read_directory(vault.lookup("SHOW").unwrap()).unwrap().into_iter().collect();
    assert_eq!(entries.len(), 4);
}

/// Code that was written when the type had this name.
#[test]
#[allow(deprecated)]
fn the_old_name_still_works() {
    fn label(disc: &strandlodge::Vault<Vec<u8>>) -> Result<String> {
        disc.label()
    }
    let disc = strandlodge::Vault::open(show()).unwrap();
    assert_eq!(label(&disc).unwrap(), Disc::open(show()).unwrap().label().unwrap());
}

/// Every call has an example in its documentation, which the tests compile, and says how it is refused.
#[test]
fn every_call_has_an_example_and_its_errors() {
    let mut calls = 0;
    for source in [include_str!("../src/disc.rs"), include_str!("../src/drive.rs"), include_str!("../src/writer.rs")] {
        let mut documented = String::new();
        for line in source.lines().map(str::trim_start) {
            if line.starts_with("///") {
                documented += line;
            } else if line.starts_with("pub fn ") {
                // What can be refused is a call; a number or a record that is kept is none.
                assert!(!line.contains("Result<") || documented.contains("```") && documented.contains("# Errors"), "{line}");
                calls += usize::from(line.contains("Result<"));
                documented.clear();
            } else if !line.starts_with("#[") {
                documented.clear();
            }
        }
    }
    assert!(calls > 25, "{calls}");
}
