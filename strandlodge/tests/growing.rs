//! An image that is still being copied: what a refusal says of it, the sector that is missing, and the command that waits.

mod common;

use common::asked::images;
use common::command::{Folder, Said};
use common::{SECTOR, TestDisc, named, noise, short_ad};
use std::fs::{File, OpenOptions};
use std::io::Write;
use std::path::Path;
use std::process::{Child, Stdio};
use std::time::{Duration, Instant};
use strandlodge::{Counted, How, LongAd};
use strandlodge_sys::asked::Image;

// ---- the crate, on the stored images that are watched as they grow

/// The first so many sectors of an image, and some bytes of the next.
fn cut(image: &[u8], sectors: u64) -> &[u8] {
    &image[..image.len().min(sectors as usize * SECTOR + 2047)]
}

#[test]
fn a_read_passes_from_1_to_its_answer_once_and_names_what_it_waits_for() {
    let (mut named, mut unnamed, mut ended) = (0, 0, 0);
    for Image { bytes: image, queries, .. } in images("growing") {
        for q in queries {
            let how = How { checked: q.volume & 1 != 0, maps: q.volume & 2 != 0, highest: q.volume & 4 != 0 };
            let icb = LongAd::parse(&q.icb).unwrap();
            let whole = Counted::open_as(&image, how).unwrap();
            let last = whole.read_file(icb);
            for sectors in 0..=(image.len() / SECTOR) as u64 {
                let Ok(vault) = Counted::open_as(cut(&image, sectors), how) else { continue };
                let refused = match vault.read_file(icb) {
                    Err(refused) if refused.may_pass() => refused,
                    // An answer stays, and so does any other refusal.
                    answer => {
                        assert_eq!(answer, last);
                        assert!(answer.is_ok() || vault.missing_sector(icb, &answer.unwrap_err()).is_none());
                        ended += 1;
                        continue;
                    }
                };
                let Some(missing) = vault.missing_sector(icb, &refused) else {
                    // One of the chain, behind the entry.
                    assert!(vault.extents(icb).unwrap_err().may_pass());
                    unnamed += 1;
                    continue;
                };
                assert!(missing >= sectors);
                // Up to that sector the same one is missing, and with it another, or none.
                let read = |sectors| Counted::open_as(cut(&image, sectors), how).unwrap().read_file(icb);
                assert_eq!(read(missing), Err(refused));
                if missing < (image.len() / SECTOR) as u64 {
                    assert_ne!(read(missing + 1), Err(refused));
                }
                named += 1;
            }
        }
    }
    assert!(named > 300 && unnamed > 30 && ended > 300, "{named} {unnamed} {ended}");
}

// ---- the command

/// A disc whose file `cue` stands behind all else, its second extent in front of the first, with some sectors behind it; the file's bytes, and
/// the number of sectors that they need.
fn disc() -> (Vec<u8>, Vec<u8>, usize) {
    let mut disc = TestDisc::new();
    let (bytes, free) = (noise(9000), disc.lay(b""));
    let entry = disc.entry(0, &[short_ad(5000, free + 5), short_ad(4000, free + 3)].concat(), 9000);
    let bad = named("bad", free + 4, false);
    let root = disc.directory(&[named("cue", entry, false), bad]);
    disc.root(root);
    assert_eq!((entry, disc.lay(&bytes[5000..])), (free, free + 3));
    disc.lay(&bytes[..5000]);
    let needed = disc.0.len() / SECTOR;
    disc.lay(&noise(20_000));
    (disc.0, bytes, needed)
}

fn append(file: &Path, bytes: &[u8]) {
    OpenOptions::new().append(true).open(file).unwrap().write_all(bytes).unwrap();
}

fn started(folder: &Folder, words: &[&str]) -> Child {
    folder.command(words).stdout(Stdio::piped()).stderr(Stdio::piped()).spawn().unwrap()
}

fn ended(child: Child) -> Said {
    Said::of(child.wait_with_output().unwrap())
}

/// What a command says of an image that grows meanwhile, in steps that end inside sectors, up to so many bytes.
fn growing(folder: &Folder, image: &[u8], from: usize, to: usize, words: &[&str]) -> Said {
    folder.write("disc.img", &image[..from]);
    let child = started(folder, words);
    std::thread::scope(|scope| {
        scope.spawn(|| {
            for step in image[from..to].chunks(9_001) {
                std::thread::sleep(Duration::from_millis(5));
                append(&folder.at("disc.img"), step);
            }
        });
        ended(child)
    })
}

/// The file is had from the first byte of the image on, from amid the directories, and from a byte before its last sector is there; what stands
/// behind it never comes.
#[test]
fn a_file_is_had_once_its_sectors_are_there() {
    let (image, bytes, needed) = disc();
    let end = needed * SECTOR;
    for from in [0, 200 * SECTOR + 5, 290 * SECTOR, end - SECTOR - 1, end - 1] {
        let folder = Folder::new();
        let said = growing(&folder, &image, from, end + 777, &["cat", "disc.img", "cue", "--wait", "60"]);
        assert_eq!((said.status, said.error.as_str()), (0, ""), "{from}");
        assert!(said.bytes == bytes, "{from}");
    }
    let folder = Folder::new();
    let said = growing(&folder, &image, 1000, end, &["--wait", "60", "--copy", "--sectors", "get", "disc.img", "cue", "cue"]);
    // The counts are those of the last look.
    assert_eq!((said.status, said.error.as_str()), (0, "vault: sectors asked for: open 6, lookup 2, read_directory 2, read_file 6\n"));
    assert!(std::fs::read(folder.at("cue")).unwrap() == bytes);
    assert_eq!(folder.names(), ["cue", "disc.img"]);
}

/// What is all there is answered at once.
#[test]
fn nothing_is_waited_for_that_is_there() {
    let (folder, (image, bytes, _)) = (Folder::new(), disc());
    folder.write("disc.img", &image);
    let said = folder.vault(&["cat", "disc.img", "cue", "--wait", "0"]);
    assert!(said.status == 0 && said.bytes == bytes);
}

/// No more bytes would change it.
#[test]
fn a_refusal_that_is_final_ends_the_waiting() {
    let (folder, (image, _, needed)) = (Folder::new(), disc());
    // Of the file itself not all sectors are there.
    folder.write("disc.img", &image[..(needed - 1) * SECTOR + 9]);
    let began = Instant::now();
    for (path, status, says) in
        [("none", 3, "there is nothing named \"none\""), ("cue/x", 3, "\"x\" under \"cue\""), ("bad", 2, "(refusal 2)")]
    {
        let said = folder.vault(&["get", "disc.img", path, "file", "--wait", "600"]);
        assert_eq!((said.status, said.out.as_str()), (status, ""), "{path}");
        assert!(said.error.contains(says) && !said.error.contains("waited"), "{path}: {}", said.error);
    }
    assert!(began.elapsed() < Duration::from_secs(60));
    assert_eq!(folder.names(), ["disc.img"]);
}

#[test]
fn the_time_that_is_waited_has_an_end() {
    let (folder, (image, _, needed)) = (Folder::new(), disc());
    let waits = |length: usize, seconds: &str, missing: &str| {
        folder.write("disc.img", &image[..length]);
        let began = Instant::now();
        let said = folder.vault(&["get", "disc.img", "cue", "file", "--wait", seconds]);
        let says = format!(": it isn't there; waited {seconds} s: {} sectors are there; {missing} is not there yet\n", length / SECTOR);
        assert!(
            said.status == 1 && said.error.ends_with(&says) && said.error.contains("(refusal 1); the last sector asked for was "),
            "{said:?}"
        );
        assert!(began.elapsed() >= Duration::from_secs(seconds.parse().unwrap()));
    };
    // The extents in turn: the first one stands behind the second.
    waits((needed - 4) * SECTOR, "1", &format!("sector {}", needed - 3));
    waits(needed * SECTOR - 1, "0", &format!("sector {}", needed - 1));
    waits((needed - 2) * SECTOR + 2047, "0", &format!("sector {}", needed - 2));
    // The anchor, the file set descriptor, and the root's entry.
    waits(0, "0", "sector 256");
    waits(290 * SECTOR, "0", "a sector that is needed");
    waits(291 * SECTOR, "0", "sector 291");
    assert_eq!(folder.names(), ["disc.img"]);
}

/// An image that isn't there, that is taken away, and that shrinks, is no image that grows.
#[test]
fn an_image_that_shrinks_or_goes_is_told_of() {
    let (folder, (image, _, needed)) = (Folder::new(), disc());
    let words = ["cat", "disc.img", "cue", "--wait", "600"];
    let refused = |said: Said, says: &str| assert!(said.status == 66 && said.error.contains(says), "{said:?}");
    refused(folder.vault(&words), "no such file");
    // Whenever the command begins to wait, what comes next is a length that is less.
    let lost: [(&dyn Fn(usize), &str); 2] = [
        (&|_| drop(std::fs::remove_file(folder.at("disc.img"))), "disc.img: no such file"),
        (&|n| File::options().write(true).open(folder.at("disc.img")).unwrap().set_len(n as u64).unwrap(), "the image shrank from"),
    ];
    for (lose, says) in lost {
        let mut length = (needed - 2) * SECTOR;
        folder.write("disc.img", &image[..length]);
        let mut child = started(&folder, &words);
        while child.try_wait().unwrap().is_none() {
            std::thread::sleep(Duration::from_millis(100));
            length -= 1;
            lose(length);
        }
        refused(ended(child), says);
    }
}
