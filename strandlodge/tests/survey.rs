//! Surveys, held to a walk over each stored image by the other calls, to the stored answers of the program `survey_cases`, and to one another; and the
//! command `vault survey`.

mod common;

use common::asked::images;
use common::command::{Folder, Said, left_out, tool};
use common::{SECTOR, TestDisc, harm, named, show};
use std::process::Command;
use strandlodge::udf::{AllocationExtentDescriptor, FileEntry};
use strandlodge::{Counted, Figure, Figures, How, LbAddr, LongAd, Refusal, Refused, Show, Survey};
use strandlodge::{UNLIMITED, survey, survey_image, survey_shelf, survey_total};
use strandlodge_sys::asked::FILES;
use strandlodge_sys::sparse::expand;

/// The bytes of a stored list, taken from the front, with numbers little-endian.
struct Input<'a>(&'a [u8]);

impl<'a> Input<'a> {
    fn take(&mut self, n: usize) -> &'a [u8] {
        let (front, rest) = self.0.split_at(n);
        self.0 = rest;
        front
    }

    /// A number of so many bytes.
    fn number(&mut self, bytes: usize) -> usize {
        self.take(bytes).iter().rev().fold(0, |n, byte| n << 8 | usize::from(*byte))
    }

    /// Bytes behind their length, which has so many bytes.
    fn sized(&mut self, bytes: usize) -> &'a [u8] {
        let n = self.number(bytes);
        self.take(n)
    }
}

fn how(number: usize) -> How {
    How { checked: number & 1 != 0, maps: number & 2 != 0, highest: number & 4 != 0 }
}

/// The images of `drive_cases`, whose records have a name, an image, and behind their number queries of 50 bytes.
fn of_drives() -> Vec<Vec<u8>> {
    let (mut all, mut images) = (Input(include_bytes!("../../crates/drive_cases/data/images")), Vec::new());
    while !all.0.is_empty() {
        all.sized(2);
        images.push(expand(all.sized(4)).unwrap());
        let queries = all.number(2);
        all.take(queries * 50);
    }
    images
}

/// The stored images that were made to do harm: without a budget their trees have no end.
const ENDLESS: [&str; 2] = ["a disc made to do harm", "the same with right bodies, but for the last directory's"];

/// Every image that is stored for the gate's programs, but for those and for the shelves; those of one file at a time.
fn stored() -> impl Iterator<Item = Vec<u8>> {
    let written = expand(include_bytes!("../../crates/writer_cases/data/written")).unwrap();
    let asked = FILES.into_iter().flat_map(images).filter(|image| !ENDLESS.contains(&image.name.as_str())).map(|image| image.bytes);
    [show(), written, Vec::new()].into_iter().chain(asked).chain(of_drives())
}

/// A shelf of `survey_cases`, and its surveys: how the images are opened, the work space, the budget, and their lengths.
struct Shelf {
    bytes: Vec<u8>,
    queries: Vec<(How, usize, u64, Vec<u64>)>,
}

/// The stored shelves. Queries that a slice can't have, with choices that aren't there, are left out, as are totals.
fn shelves() -> Vec<Shelf> {
    let (mut all, mut shelves) = (Input(include_bytes!("../../crates/survey_cases/data/shelves")), Vec::new());
    while !all.0.is_empty() {
        all.sized(2);
        let (bytes, mut asked, mut queries) = (expand(all.sized(4)).unwrap(), Input(all.sized(4)), Vec::new());
        while !asked.0.is_empty() {
            let [what, chosen, _places, work] = [(); 4].map(|()| asked.number(4));
            let (most, numbers) = (asked.number(8) as u64, asked.number(4));
            let lengths: Vec<u64> = (0..numbers).map(|_| asked.number(8) as u64).collect();
            if what == 0 && chosen < 8 {
                queries.push((how(chosen), work, most, lengths));
            }
        }
        shelves.push(Shelf { bytes, queries });
    }
    shelves
}

/// The images of a shelf; none where they pass it.
fn cut(shelf: &[u8], lengths: &[u64]) -> Option<Vec<Vec<u8>>> {
    let mut rest = shelf;
    let one = |length: &u64| {
        let (image, behind) = rest.split_at_checked(usize::try_from(*length).ok()?)?;
        rest = behind;
        Some(image.to_vec())
    };
    lengths.iter().map(one).collect()
}

/// How many continuations the descriptors of a file that can be read go on in: its entry's area, and then each that it leads to.
fn chain(vault: &Counted, icb: LongAd) -> u64 {
    let at = |sector: u64| &vault.image()[sector as usize * SECTOR..];
    let entry = FileEntry::parse(at(vault.icb_sector(icb).unwrap())).unwrap();
    let size = [8, 16, 20].get(usize::from(entry.icb_tag.flags & 7)).copied().unwrap_or(usize::MAX);
    let place = |block, partition_ref: Option<u16>| match partition_ref {
        Some(partition_ref) => vault.sector_of(LbAddr { block, partition_ref }),
        None => Some(vault.icb_sector(icb).unwrap() - u64::from(icb.location.block) + u64::from(block)),
    };
    let (mut next, mut links) = (entry.continuation.map(|next| (next.block, next.partition_ref)), 0);
    while let Some((block, partition_ref)) = next {
        links += 1;
        let bytes = at(place(block, partition_ref).unwrap());
        let length = AllocationExtentDescriptor::parse(bytes).unwrap().length_of_allocation_descriptors as usize;
        let area = &bytes[AllocationExtentDescriptor::HEADER_SIZE..][..length];
        let last = area.chunks_exact(size).map(|ad| (Input(ad).number(4), ad)).find(|(raw, _)| raw & 0x3fff_ffff == 0 || raw >> 30 == 3);
        next = last.filter(|(raw, _)| raw & 0x3fff_ffff != 0).map(|(_, ad)| {
            // Behind the recorded and the information length where it is an ext_ad.
            let mut place = Input(&ad[if size == 20 { 12 } else { 4 }..]);
            (place.number(4) as u32, (size > 8).then(|| place.number(2) as u16))
        });
    }
    links
}

/// An image that is refused has no other figure.
fn refused_by(why: Refusal) -> Figures {
    let mut figures = Figures::default();
    figures.images_by_answer[why.number() as usize] = 1.into();
    figures
}

/// The figures of an image by its opening, its show, and for each file its read and its extents: these have so many sectors together.
fn walked(image: &[u8], how: How, most: u64) -> Figures {
    let opened = Counted::open_as(image, how);
    let sectors = opened.as_ref().map_or_else(|refused| refused.sectors, |vault| vault.sectors);
    let Some(left) = most.checked_sub(sectors) else { return refused_by(Refusal::OverBudget) };
    let (vault, show) = match opened.and_then(|vault| Ok((vault.value, vault.show(16, left)?))) {
        Ok(shown) => shown,
        Err(why) => return refused_by(why.into()),
    };
    let figures = read(&vault, show.value);
    if figures.sectors.number > left - show.sectors { refused_by(Refusal::OverBudget) } else { figures }
}

/// Those of an image that was opened and shown.
fn read(vault: &Counted, show: Show) -> Figures {
    let mut figures = Figures::default();
    let add = |figure: &mut Figure, n: u64| figure.number += n;
    add(&mut figures.images_by_answer[0], 1);
    for entry in show.map(|one| one.entry) {
        if entry.is_directory {
            add(&mut figures.directories, 1);
            continue;
        }
        add(&mut figures.files, 1);
        match vault.read_file(entry.icb) {
            Ok(read) => {
                add(&mut figures.files_by_answer[0], 1);
                add(&mut figures.bytes, read.len() as u64);
                add(&mut figures.sectors, read.sectors);
                add(&mut figures.extents, vault.extents(entry.icb).unwrap().len() as u64);
                figures.chain.number = figures.chain.number.max(chain(vault, entry.icb));
            }
            Err(refused) => {
                add(&mut figures.files_by_answer[refused.number() as usize], 1);
                add(&mut figures.sectors, refused.sectors);
            }
        }
    }
    figures
}

#[test]
fn every_stored_image_is_surveyed_as_it_is_walked() {
    let (mut files, mut images, mut surveyed) = (0, 0, 0);
    for image in stored() {
        surveyed += 1;
        for how in (0..8).map(how) {
            let figures = survey_image(&image, how, UNLIMITED);
            assert_eq!(figures, walked(&image, how, UNLIMITED));
            files += figures.files.number;
            images += figures.images_by_answer[0].number;
        }
    }
    assert!(surveyed > 1_500 && files > 20_000 && images > 3_000, "{surveyed} {files} {images}");
}

/// The images of a shelf are surveyed together as they are one by one, and as they are walked; and a file of each refusal is counted.
#[test]
fn a_shelf_is_its_images() {
    let (mut refused, mut chain, mut over, mut asked) = (Vec::new(), 0, 0, 0);
    for Shelf { bytes, queries } in shelves() {
        for (how, work, most, lengths) in queries {
            let given = survey_shelf(&bytes, &lengths, how, most, &mut vec![0xa5; work]);
            let Some(images) = cut(&bytes, &lengths) else {
                assert_eq!(given, Err(Refusal::BadShelf));
                continue;
            };
            let (given, alone) = (given.unwrap(), survey(&images, how, most).unwrap());
            assert_eq!(survey_total(&given.images).unwrap(), given.total);
            assert_eq!(alone.images, images.iter().map(|image| walked(image, how, most)).collect::<Vec<_>>());
            // With less work space than is lent here an image may be refused by 6.
            if given.total.images_refused(Refusal::NoWork).is_zero() {
                assert_eq!(given, alone);
            }
            refused.extend(given.total.refused_files().map(|(why, _)| why.number()));
            chain = chain.max(given.total.chain.number);
            over += given.total.images_refused(Refusal::OverBudget).number;
            asked += 1;
        }
    }
    refused.sort();
    refused.dedup();
    assert_eq!((refused, chain), (vec![1, 2, 4, 10], 32));
    assert!(asked > 200 && over > 100, "{asked} {over}");
}

/// The figures of a place that aren't 0, as `survey_cases` prints them.
fn place(line: &str) -> Vec<(usize, u64)> {
    line.split(' ').skip(1).map(|word| word.split_once(':').unwrap()).map(|(at, n)| (at.parse().unwrap(), n.parse().unwrap())).collect()
}

fn placed(figures: &Figures) -> Vec<(usize, u64)> {
    let front = [figures.files, figures.directories, figures.bytes, figures.extents, figures.sectors];
    let all = front.into_iter().chain(figures.files_by_answer).chain(figures.images_by_answer).chain([figures.chain]);
    all.enumerate().filter(|(_, figure)| !figure.is_zero()).map(|(at, figure)| (at, figure.number)).collect()
}

/// Each stored survey that is done is so here, place by place.
#[test]
fn surveys_are_those_that_are_stored() {
    let mut lines = include_str!("../../crates/survey_cases/stdout").lines().peekable();
    let (mut shelves, mut shelf, mut checked) = (shelves().into_iter(), None, 0);
    while let Some(line) = lines.next() {
        if line.starts_with("shelf ") {
            shelf = shelves.next();
        }
        let Some(asked) = line.strip_prefix("survey how ") else { continue };
        let (front, behind) = asked.split_once(" lengths").unwrap();
        let numbers = |words: &str| words.split(' ').filter_map(|word| word.parse().ok()).collect::<Vec<u64>>();
        let (front, lengths) = (numbers(front), numbers(behind));
        let (chosen, work, most) = (front[0] as usize, front[2] as usize, front.get(3).copied().unwrap_or(UNLIMITED));
        let is_done = lines.next().unwrap().starts_with("answer 0 ");
        let mut places = Vec::new();
        while let Some(line) = lines.next_if(|line| line.starts_with("place")) {
            places.push(place(line));
        }
        if chosen < 8 && is_done {
            let Survey { images, total } =
                survey_shelf(&shelf.as_ref().unwrap().bytes, &lengths, how(chosen), most, &mut vec![0xa5; work]).unwrap();
            assert_eq!(images.iter().chain([&total]).map(placed).collect::<Vec<_>>(), places, "{line}");
            checked += 1;
        }
    }
    assert!(checked > 100, "{checked}");
}

#[test]
fn what_is_over_is_so_in_the_total() {
    let of = |number, over| Figures { bytes: Figure { number, over }, ..Figures::default() };
    let total = |all: &[Figures]| survey_total(all).unwrap().bytes;
    let over = Figure { number: u64::MAX, over: true };
    assert_eq!(total(&[]), Figure::default());
    assert_eq!(total(&[of(u64::MAX, false)]), u64::MAX.into());
    assert_eq!(total(&[of(u64::MAX - 1, false), of(1, false)]), u64::MAX.into());
    assert_eq!(total(&[of(u64::MAX, false), of(1, false)]), over);
    assert_eq!(total(&[of(u64::MAX, true), of(0, false), of(3, false)]), over);
    let chain = |number: u64| Figures { chain: number.into(), files: number.into(), ..Figures::default() };
    let both = survey_total(&[chain(3), chain(32), chain(5)]).unwrap();
    assert_eq!((both.chain, both.files), (32.into(), 40.into()));
    let by = |n: usize| Figures { files_by_answer: std::array::from_fn(|at| u64::from(at == n).into()), ..Figures::default() };
    let all: Vec<Figures> = (0..17).map(by).collect();
    assert!(survey_total(&all).unwrap().files_by_answer.iter().all(|figure| *figure == 1.into()));
}

#[test]
fn no_images_have_no_figures() {
    let none = Survey { images: Vec::new(), total: Figures::default() };
    assert_eq!(survey(&[] as &[&[u8]], How::default(), 0).unwrap(), none);
    assert_eq!(survey_shelf(&[7; 100], &[], How::default(), 0, &mut []).unwrap(), none);
    assert_eq!(survey_shelf(&[7; 100], &[101], How::default(), UNLIMITED, &mut []), Err(Refusal::BadShelf));
    assert_eq!(survey_shelf(&[7; 100], &[u64::MAX, 2], How::default(), UNLIMITED, &mut []), Err(Refusal::BadShelf));
}

/// The show with folder SHOW large, so that its work space has to grow, and below it a folder as large.
#[test]
fn the_work_space_grows() {
    let mut disc = TestDisc::new();
    let file = disc.file(b"cue");
    let names = |front: &str| (0..5000).map(|n| named(&format!("{front}{n:05}"), file, false)).collect::<Vec<_>>();
    let below = disc.directory(&names("b"));
    let root = disc.directory(&[vec![named("BELOW", below, true)], names("a")].concat());
    disc.root(root);
    let figures = survey_image(&disc.0, How::default(), UNLIMITED);
    assert_eq!((figures.files, figures.directories, figures.bytes), (10_000.into(), 1.into(), 30_000.into()));
    let within = |work: usize| survey_shelf(&disc.0, &[disc.0.len() as u64], How::default(), UNLIMITED, &mut vec![7; work]).unwrap().total;
    assert_eq!((within(64 << 10).refusal(), within(1 << 20)), (Some(Refusal::NoWork), figures));
}

/// A show that is lent as many sectors as its list has is the one without a budget, answered or refused; and lent fewer it is 16, with as many as its count.
#[test]
fn every_stored_show_within_its_budget() {
    let (mut whole, mut over) = (0, 0);
    for image in stored() {
        for (how, levels) in (0..8).map(how).flat_map(|how| [1, 2, 3, 16].map(|levels| (how, levels))) {
            let Ok(vault) = Counted::open_as(&image, how) else { continue };
            let shown = |most| vault.show(levels, most).map(|shown| shown.map(|shown| shown.map(|one| one.path).collect::<Vec<_>>()));
            let all = shown(UNLIMITED);
            let list = all.as_ref().map_or_else(|refused| refused.sectors, |shown| shown.sectors);
            assert!(shown(list) == all && shown(list + 1) == all);
            whole += 1;
            for most in [0, list / 2, list.saturating_sub(1)].into_iter().filter(|most| *most < list) {
                assert_eq!(shown(most), Err(Refused { why: Refusal::OverBudget, sectors: most }));
                over += 1;
            }
        }
    }
    assert!(whole > 10_000 && over > 20_000, "{whole} {over}");
}

/// A survey of an image takes its opening, its tree and the reads of its files: lent as many sectors as that it is the one without a budget, and lent
/// fewer it is 16 and nothing else.
#[test]
fn a_survey_within_its_budget() {
    let (mut images, mut over) = (0, 0);
    for image in stored() {
        let how = How::default();
        let Ok(vault) = Counted::open_as(&image, how) else { continue };
        let Ok(shown) = vault.show(16, UNLIMITED) else { continue };
        let whole = survey_image(&image, how, UNLIMITED);
        let most = vault.sectors + shown.sectors + whole.sectors.number;
        assert_eq!(survey_image(&image, how, most), whole);
        images += 1;
        for fewer in [most - 1, most / 2, vault.sectors, vault.sectors - 1, 0] {
            assert_eq!(survey_image(&image, how, fewer.min(most - 1)), refused_by(Refusal::OverBudget));
            over += 1;
        }
    }
    assert!(images > 300 && over == 5 * images, "{images} {over}");
}

/// Each image has the same budget anew, and one that runs out keeps none of the others back.
#[test]
fn a_shelf_with_a_disc_that_was_made_to_do_harm() {
    let (disc, show) = (harm(14).0, show());
    let images = [&show[..], &disc, &show];
    let lengths = images.map(|image| image.len() as u64);
    for most in [16, 100_000] {
        let shelf = survey(&images, How::default(), most).unwrap();
        assert_eq!(survey_shelf(&images.concat(), &lengths, How::default(), most, &mut vec![7; 1 << 16]).unwrap(), shelf);
        let alone = survey_image(&show, How::default(), UNLIMITED);
        assert_eq!((shelf.images[0], shelf.images[2]), (alone, alone));
        assert_eq!((shelf.images[1].refusal(), shelf.images[1].files), (Some(Refusal::OverBudget), 0.into()));
        assert_eq!((shelf.total.files, shelf.total.images_refused(Refusal::OverBudget)), (8.into(), 1.into()));
        assert!(shelf.total.files_refused(Refusal::OverBudget).is_zero());
    }
}

/// By the command such a shelf ends by itself, with a line for each image.
#[test]
fn the_command_goes_on_behind_a_disc_that_was_made_to_do_harm() {
    let (folder, disc) = (shelf(), harm(14).0);
    folder.write("harm.img", &disc);
    let begun = std::time::Instant::now();
    let said = folder.vault(&["survey", "show.img", "harm.img", "show.img"]);
    // It is half a second on a machine that does nothing else.
    assert!(begun.elapsed().as_secs() < 30, "{:?}", begun.elapsed());
    let line = |name: &str| format!("       4           1              154        4          8     0       - {name}");
    let limit = 500_000 + 4 * disc.len() / SECTOR;
    let stopped = |limit: usize| {
        let cure = "The disc may be malicious. Use --limit N for another limit, or --no-limit for none.";
        format!("harm.img: stopped after {limit} sectors, the limit (refusal 16). {cure}")
    };
    let total = "       8           2              308        8         16     0       - total";
    // Lines of figures alone go to standard output.
    assert_eq!(said.out.lines().collect::<Vec<_>>(), [&line("show.img"), &line("show.img"), total]);
    let last = "vault: survey: images: 3, not surveyed: 1; files: 8, of which can be read: 8\n";
    assert_eq!((said.status, said.error), (67, format!("vault: {}\n{last}", stopped(limit))));
    let said = folder.vault(&["survey", "harm.img", "show.img", "--limit", "16", "--json"]);
    let front =
        format!("{{\"images\": [{{\"image\": \"harm.img\", \"answer\": 16, \"says\": \"{}\", \"limit\": 16, \"files\": 0,", stopped(16));
    assert!(said.status == 67 && said.out.starts_with(&front), "{said:?}");
    assert!(said.out.contains("\"show.img\", \"answer\": 0, \"says\": null, \"limit\": 16, \"files\": 4"), "{said:?}");
    assert!(said.out.ends_with("\"images_by_answer\": [{\"answer\": 0, \"images\": 1}, {\"answer\": 16, \"images\": 1}]}}\n"), "{said:?}");
    // A small tree of many paths, which has an end.
    folder.write("small.img", &harm(3).0);
    let no_limit = folder.vault(&["survey", "small.img", "--no-limit"]);
    assert!(no_limit.status == 0 && no_limit.out.starts_with("    8000         420            24000        0       8000 "), "{no_limit:?}");
    assert_eq!(folder.vault(&["survey", "small.img"]).out, no_limit.out);
    let most = 6 + 1 + 20 + 400 + 8000;
    assert_eq!(folder.vault(&["survey", "small.img", "--limit", &most.to_string()]).out, no_limit.out);
    let fewer = folder.vault(&["survey", "small.img", "--limit", &(most - 1).to_string()]);
    assert!(fewer.status == 67 && fewer.out.is_empty() && fewer.error.contains("(refusal 16)"), "{fewer:?}");
}

/// Two images of which one is refused, one that isn't there, and a file that can't be read.
fn shelf() -> Folder {
    let folder = Folder::new();
    folder.write("show.img", &show());
    folder.write("cut.img", &show()[..300_000]);
    let mut ruined = show();
    ruined[293 * SECTOR] ^= 1;
    folder.write("ruined.img", &ruined);
    folder
}

#[test]
fn the_command_surveys_a_shelf() {
    let folder = shelf();
    let said = folder.vault(&["survey", "show.img"]);
    let line = "       4           1              154        4          8     0       - show.img\n";
    assert_eq!((said.status, said.out.as_str(), said.error.as_str()), (0, line, ""), "{said:?}");
    let said = folder.vault(&["survey", "show.img", "cut.img"]);
    assert_eq!((said.status, said.out.as_str()), (67, format!("{line}{}", line.replace("show.img", "total")).as_str()), "{said:?}");
    let errors: Vec<&str> = said.error.lines().collect();
    assert!(errors[0].starts_with("vault: cut.img: a sector is missing") && errors[0].contains("(refusal 1); the last sector"), "{said:?}");
    assert_eq!(errors[1..], ["vault: survey: images: 2, not surveyed: 1; files: 4, of which can be read: 4"]);
    let said = folder.vault(&["survey", "ruined.img", "none.img", "show.img", "--copy"]);
    let lines: Vec<&str> = said.out.lines().collect();
    let total = "       8           2              281        7         15     0     2:1 total";
    assert!(said.status == 67 && lines.len() == 3 && lines[0].ends_with("     0     2:1 ruined.img") && lines[2] == total, "{said:?}");
    let last = "vault: survey: images: 3, not surveyed: 1; files: 8, of which can be read: 7\n";
    assert_eq!(said.error, format!("vault: none.img: no such file\n{last}"));
    assert_eq!(folder.vault(&["survey", "ruined.img"]).status, 67);
}

/// How the images are opened is as it is chosen, and the sectors are those of the reads.
#[test]
fn the_command_surveys_as_it_is_chosen() {
    let folder = shelf();
    let mut scratched = show();
    scratched[293 * SECTOR + 40] ^= 1;
    folder.write("scratched.img", &scratched);
    assert_eq!(folder.vault(&["survey", "scratched.img"]).status, 0);
    let said = folder.vault(&["survey", "--checked", "scratched.img", "--sectors"]);
    assert!(said.status == 67 && said.out.contains(" 10:1 scratched.img"), "{said:?}");
    assert!(said.error.contains("sectors asked for: reads 7\n"), "{said:?}");
    folder.write("reclosed.img", &common::reclosed());
    let [last, highest] = [&["survey", "reclosed.img"][..], &["survey", "reclosed.img", "--highest"]].map(|words| folder.vault(words));
    assert_eq!((last.status, highest.status), (67, 0), "{last:?} {highest:?}");
    let said = folder.vault(&["survey", "show.img", "--maps"]);
    assert!(said.status == 67 && said.out.is_empty() && said.error.contains("(refusal 4)"), "{said:?}");
}

/// A terminal has a line above the figures; a pipe has figures alone.
#[test]
fn a_terminal_sees_what_the_figures_are() {
    let folder = shelf();
    let Some(script) = tool("script") else { return left_out("a_terminal_sees_what_the_figures_are", "script") };
    let line = format!("'{}' survey show.img 2>/dev/null", env!("CARGO_BIN_EXE_vault"));
    let seen = Said::of(Command::new(script).args(["-qec", &line, "/dev/null"]).current_dir(&folder.0).output().unwrap());
    let lines: Vec<&str> = seen.out.lines().map(str::trim_end).collect();
    assert!(lines.len() == 2 && lines[0].ends_with(" chain refused image") && lines[1].ends_with(" show.img"), "{seen:?}");
    assert_eq!(lines[0].find("image"), lines[1].find("show.img"));
    assert_eq!(folder.vault(&["survey", "show.img"]).out.lines().count(), 1);
}

/// Images of many kinds, with names that are hard to write.
fn many(folder: &Folder) -> Vec<String> {
    let images = images("trees").into_iter().map(|image| image.bytes).chain([show(), show()[..300_000].to_vec(), harm(3).0]);
    let mut names = Vec::new();
    for (n, image) in images.enumerate() {
        let name = format!("{n} a\\b\u{1b}.img");
        folder.write(&name, &image);
        names.push(name);
    }
    names
}

/// Rows that were made one by one, in several files and in any order, add up to one survey of all.
#[test]
fn rows_add_up_to_one_survey() {
    let folder = shelf();
    let names = many(&folder);
    let all: Vec<&str> = names.iter().map(String::as_str).chain(["ruined.img", "cut.img"]).collect();
    for how in [&[][..], &["--checked"], &["--limit", "100"]] {
        let whole = folder.vault(&[&["survey"], how, &all].concat());
        let rows = folder.vault(&[&["survey", "--rows"], how, &all].concat());
        assert_eq!((rows.status, rows.error.as_str(), rows.out.lines().count()), (whole.status, whole.error.as_str(), all.len()));
        folder.write("rows", rows.out.as_bytes());
        let total = folder.vault(&["survey", "--total", "rows"]);
        assert_eq!((total.status, total.out.as_str()), (whole.status, whole.out.as_str()));
        let last = |said: &Said| said.error.lines().last().map(String::from);
        assert_eq!(last(&total), last(&whole));
        // Cut anywhere into files, and those in another order.
        let lines: Vec<&str> = rows.out.split_inclusive('\n').collect();
        let (front, back) = lines.split_at(lines.len() / 3);
        folder.write("front", front.concat().as_bytes());
        folder.write("back", back.concat().as_bytes());
        let again = folder.vault(&["survey", "--total", "back", "front"]);
        assert_eq!((again.status, again.out.lines().last()), (whole.status, whole.out.lines().last()));
        // As a document: all figures.
        let [whole, total] =
            [[&["survey", "--json"], how, &all].concat(), vec!["survey", "--json", "--total", "rows"]].map(|words| folder.vault(&words));
        let sum = |said: &Said| said.out.split("\"total\": ").nth(1).map(String::from).unwrap();
        assert_eq!((total.status, sum(&total)), (whole.status, sum(&whole)));
    }
    // None are none, and an image that isn't there has no row.
    folder.write("rows", b"");
    let said = folder.vault(&["survey", "--total", "rows"]);
    assert_eq!((said.status, said.out.as_str()), (0, "       0           0                0        0          0     0       - total\n"));
    let said = folder.vault(&["survey", "--rows", "none.img"]);
    assert_eq!((said.status, said.out.as_str(), said.error.lines().count()), (67, "", 2), "{said:?}");
}

/// A sum of which a part is lost isn't given.
#[test]
fn a_row_that_is_not_whole_is_refused() {
    let folder = shelf();
    let row = folder.vault(&["survey", "--rows", "show.img"]).out;
    assert!(row.starts_with("80 4 0 1 0 154 0 4 0 8 0 4 0 ") && row.ends_with(" 0 0 show.img\n") && row.split(' ').count() == 82, "{row}");
    for (rows, line) in [
        (row.trim_end().to_string(), 1),
        (format!("{row}{}", &row[..40]), 2),
        (format!("{row}\n"), 2),
        (format!("{row}{row}{}", row.replacen("80", "78", 1)), 3),
        (row.replacen("154", "18446744073709551616", 1), 1),
        ("   4  1  154 show.img\n".to_string(), 1),
    ] {
        folder.write("rows", rows.as_bytes());
        let said = folder.vault(&["survey", "--total", "rows"]);
        let error = format!("vault: rows: line {line} is not a complete row of `vault survey --rows`\n");
        assert_eq!((said.status, said.out.as_str(), said.error), (65, "", error));
    }
    assert_eq!(folder.vault(&["survey", "--total", "none"]).status, 66);
    assert!(folder.vault(&["survey", "--total", "none", "--json"]).out.starts_with("{\"refused\": {\"answer\": null, \"status\": 66"));
}

/// A line of strandlodge/README.md, on this machine alone: an image to a process, by GNU parallel, or else by xargs.
#[test]
fn a_shelf_is_surveyed_by_many_processes() {
    let folder = shelf();
    let names = many(&folder);
    let all: Vec<&str> = names.iter().map(String::as_str).collect();
    folder.write("images", format!("{}\0", all.join("\0")).as_bytes());
    std::fs::create_dir(folder.at("made")).unwrap();
    // It tells of images that were refused by its status.
    let by_parallel = "parallel -0 --jobs 2 --will-cite -q vault survey --rows {} <images >made/rows";
    // No two processes write to one file.
    let by_xargs = "xargs -0 -n 7 -P 2 sh -c 'vault survey --rows \"$@\" >\"made/rows-$$\"' sh <images";
    let Some(sh) = tool("sh") else { return left_out("a_shelf_is_surveyed_by_many_processes", "sh") };
    let path =
        format!("{}:{}", std::path::Path::new(env!("CARGO_BIN_EXE_vault")).parent().unwrap().display(), std::env::var("PATH").unwrap());
    let line = if tool("parallel").is_some() { by_parallel } else { by_xargs };
    let ran = Said::of(Command::new(sh).args(["-c", line]).env("PATH", path).current_dir(&folder.0).output().unwrap());
    let made: Vec<String> =
        std::fs::read_dir(folder.at("made")).unwrap().map(|file| format!("made/{}", file.unwrap().file_name().display())).collect();
    let made: Vec<&str> = made.iter().map(String::as_str).collect();
    let (total, whole) = (folder.vault(&[&["survey", "--total"], &made[..]].concat()), folder.vault(&[&["survey"], &all[..]].concat()));
    let sorted = |said: &Said| {
        let mut lines: Vec<String> = said.out.lines().map(String::from).collect();
        lines.sort();
        lines
    };
    assert!(whole.status == 67 && sorted(&whole).len() > 20, "{whole:?}");
    assert_eq!((total.status, sorted(&total)), (67, sorted(&whole)), "{ran:?}");
}

/// One document, which another program reads, also where the name of an image is hard to write.
#[test]
fn the_survey_is_a_document() {
    let folder = shelf();
    folder.write("q\"uo\\te\u{1b}.img", &show());
    let words = ["survey", "--json", "ruined.img", "cut.img", "none.img", "q\"uo\\te\u{1b}.img"];
    let said = folder.vault(&words);
    assert_eq!((said.status, said.out.lines().count()), (67, 1), "{said:?}");
    let total = "\"total\": {\"files\": 8, \"directories\": 2, \"bytes\": 281, \"extents\": 7, \"sectors\": 15, \"chain\": 0, \
                 \"files_by_answer\": [{\"answer\": 0, \"files\": 7}, {\"answer\": 2, \"files\": 1}], \"over\": [], \
                 \"images_by_answer\": [{\"answer\": 0, \"images\": 2}, {\"answer\": 1, \"images\": 1}]}}\n";
    assert!(said.out.ends_with(total), "{said:?}");
    let Some(python) = tool("python3") else {
        return left_out("the document of a survey, read by another program", "python3");
    };
    folder.write("document", &said.bytes);
    let read = "import json; d = json.load(open('document', encoding='utf-8')); \
                print([(i['answer'], i.get('files'), i['says'] is None) for i in d['images']], d['images'][3]['image'])";
    let read = Said::of(Command::new(&python).args(["-c", read]).current_dir(&folder.0).output().unwrap());
    assert_eq!(read.out, "[(0, 4, True), (1, 0, False), (None, None, False), (0, 4, True)] q\"uo\\\\te\\u{1b}.img\n", "{read:?}");
}
