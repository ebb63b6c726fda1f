//! The questions on an image, answered.

use crate::args::Question;
use crate::check;
use crate::disc::{Found, OpenDisc, Volume};
use crate::failure::{Failure, WRONG};
use crate::file::Target;
use crate::folder;
use crate::info;
use crate::json::{Json, Rows};
use crate::log::Log;
use crate::many;
use crate::maps;
use crate::names::{shown, shown_name};
use crate::runs::{self, Span};
use crate::sizes::Sizes;
use crate::steps::Rule;
use crate::style::{Style, bytes, listed};
use crate::tree;
use crate::wanted::Wanted;
use std::ffi::OsStr;
use std::io::{self, Write};
use std::os::unix::ffi::OsStrExt;
use std::path::Path;
use strandlodge::{AllocExtent, Asked, Counted, How, LongAd, Refusal, Runs, VolumeDescriptor};
use strandlodge::{map_table, probe_vrs, volume_descriptors};

/// How a question is asked: how the image is opened, how names are matched, how the answer is printed, and what of a file is wanted.
#[derive(Clone, Copy)]
pub struct Manner {
    pub how: How,
    pub matching: Rule,
    pub style: Style,
    pub span: Span,
}

/// Answers a question on an image, which goes by `name`.
pub fn ask(question: &Question, manner: Manner, image: &[u8], name: &OsStr, out: &mut impl Write, log: &mut Log) -> Result<(), Failure> {
    let (file, name, Manner { how, matching, style, span }) = (name, &shown(name.as_bytes()), manner);
    let open = |log| OpenDisc::open(image, how, name, matching, log);
    let watched = |log| open(log).map(OpenDisc::watch);
    match question {
        Question::Probe => probe(image, out),
        Question::Label => {
            let label = log.count("label", Counted::label_of(image, how)).map_err(|refused| maps::refused(image, how, name, refused))?;
            line(out, &shown(label.as_bytes()))
        }
        Question::Info => info::info(image, how, name, style, out, log),
        Question::Ls { wanted } => ls(&mut watched(log)?, wanted, style, out),
        Question::Tree { wanted, form, bounds } => tree::show(&mut open(log)?, wanted, *form, *bounds, style, out),
        Question::Stat { wanted } => stat(&mut watched(log)?, wanted, style, out),
        Question::Descriptors if style.is_json => descriptors_json(image, how, &mut open(log)?, out),
        Question::Descriptors => {
            // Before opening: where it is refused, what it was refused for may be seen in them.
            volume_descriptors(image, how).iter().try_for_each(|one| line(out, &standing(one)))?;
            map_table(image, how).iter().flat_map(maps::lines).try_for_each(|text| line(out, &text))?;
            volume(&mut open(log)?, out)
        }
        Question::Check { limit } => check::check(image, manner, *limit, name, out, log),
        Question::Cat { wanted } => {
            let runs = find(&mut watched(log)?, wanted, span)?;
            runs::print(runs, out)
        }
        Question::Get { wanted, file } => {
            let target = Target::at(file)?;
            let runs = find(&mut watched(log)?, wanted, span)?;
            runs::put(runs, &target).map(|_| ())
        }
        Question::GetAll { paths, folder } => many::get(&mut watched(log)?, paths, Path::new(folder), file, out),
        Question::GetTree { tree, folder } => folder::get(&mut watched(log)?, tree, Path::new(folder), file, out),
    }
}

/// Prints whether there is a recognition sequence, and ends so that a script can tell.
fn probe(image: &[u8], out: &mut impl Write) -> Result<(), Failure> {
    let found = probe_vrs(image);
    line(out, if found { "yes" } else { "no" })?;
    if found { Ok(()) } else { Err(Failure { status: WRONG, says: None }) }
}

pub fn line(out: &mut impl Write, text: &str) -> Result<(), Failure> {
    writeln!(out, "{text}").map_err(Failure::output)
}

/// What is wanted of a file.
fn find<'a>(disc: &mut OpenDisc<Counted<'a>>, wanted: &Wanted, span: Span) -> Result<Runs<'a>, Failure> {
    let found = disc.find_file(wanted)?;
    runs::find(disc, &wanted.text(), found.icb, span)
}

/// A directory's entries, or a file's own.
pub fn ls<V: Volume>(disc: &mut OpenDisc<V>, wanted: &Wanted, style: Style, out: &mut impl Write) -> Result<(), Failure> {
    let found = disc.find_listed(wanted)?;
    let entries = match found.entry {
        Some(entry) if !entry.is_directory => vec![entry],
        _ => {
            let entries = disc.list(&wanted.text(), found.icb)?;
            disc.see_directory(&wanted.text(), found.icb);
            entries
        }
    };
    if style.is_json {
        let mut rows = Rows::new(out);
        entries.iter().try_for_each(|entry| {
            let sizes = style.is_long.then(|| disc.sizes(entry.icb));
            rows.row(&Json::Object(Json::sized(entry, sizes)))
        })?;
        return rows.end();
    }
    entries.iter().try_for_each(|entry| {
        let sizes = style.is_long.then(|| disc.sizes(entry.icb));
        style.line(entry, sizes, entry.name.as_bytes(), &shown_name(&entry.name), out)
    })
}

/// A descriptor of the volume, with its number.
pub fn standing(one: &VolumeDescriptor) -> String {
    let prevails = if one.prevails { ", prevails" } else { "" };
    format!("found    sector {}, {}, number {}{prevails}", one.sector, one.kind, one.number)
}

/// What the descriptors that prevail lead to.
fn volume(disc: &mut OpenDisc<Counted>, out: &mut impl Write) -> Result<(), Failure> {
    let label = disc.label()?;
    let vault = disc.volume;
    say_volume(&label, vault.partition_start_sector(), vault.partition_number(), vault.root_directory_icb(), out)?;
    line(out, &format!("sectors  {}", disc.log.sectors()))
}

/// A volume's name, its partition and its root.
pub fn say_volume(label: &str, start: u64, number: u16, root: LongAd, out: &mut impl Write) -> Result<(), Failure> {
    let (place, length, kind) = (root.location, root.length, root.extent_type);
    line(out, &format!("label    {}", shown(label.as_bytes())))?;
    line(out, &format!("start    sector {start}, partition {number}"))?;
    line(out, &format!("root     block {}, partition {}, {}, type {kind}", place.block, place.partition_ref, bytes(length)))
}

fn stat(disc: &mut OpenDisc<Counted>, wanted: &Wanted, style: Style, out: &mut impl Write) -> Result<(), Failure> {
    let (found, path) = (disc.find(wanted)?, wanted.text());
    let asked = Asked::ReadFile(found.icb);
    let part = disc.count(&path, asked, "part", disc.volume.part(found.icb))?;
    let extents = disc.count(&path, asked, "extents", disc.volume.extents(found.icb))?;
    disc.see_file(&path, found.icb);
    let measured = disc.log.count("measure", disc.volume.measure(found.icb)).map_err(Refusal::from);
    let information = disc.volume.entry(found.icb).map(|entry| entry.information_length);
    let sizes = Sizes { information, read: Some(measured), extents: Some(extents.len() as u64) };
    if style.is_json {
        let mut all = found_json(&found, &path);
        all.extend(sizes.json());
        all.extend(extents_json(disc.volume, found.icb, part.len(), &extents));
        all.push(("sectors", disc.log.json()));
        return Json::Object(all).print(out);
    }
    say_found(&found, &path, out)
        .and_then(|()| sizes.lines().iter().try_for_each(|text| writeln!(out, "{text}")))
        .and_then(|()| say_extents(disc.volume, found.icb, part.len(), &extents, out))
        .and_then(|()| writeln!(out, "sectors  {}", disc.log.sectors()))
        .map_err(Failure::output)
}

/// What was found, as a document has it. The path is as `cat` takes it.
pub fn found_json(found: &Found, path: &[u8]) -> Vec<(&'static str, Json)> {
    let entry = Json::maybe(found.entry.as_ref(), |entry| Json::text(&entry.name));
    vec![("path", Json::text(shown(path))), ("entry", entry), ("kind", Json::kind(found.is_directory)), ("icb", Json::icb(found.icb))]
}

fn extents_json(vault: Counted, icb: LongAd, embedded: usize, extents: &[AllocExtent]) -> Vec<(&'static str, Json)> {
    let one = |extent: &AllocExtent| {
        Json::Object(vec![
            ("length", Json::number(extent.length)),
            ("type", Json::number(extent.extent_type)),
            ("block", Json::number(extent.block)),
            ("partition", Json::maybe(extent.partition_ref, Json::number)),
            ("sector", Json::maybe(vault.extent_sector(icb, extent), Json::number)),
        ])
    };
    vec![("embedded", Json::number(embedded as u64)), ("extents", Json::List(extents.iter().map(one).collect()))]
}

/// What `stat` prints without a path, as a document.
fn descriptors_json(image: &[u8], how: How, disc: &mut OpenDisc<Counted>, out: &mut impl Write) -> Result<(), Failure> {
    let label = disc.label()?;
    let maps = map_table(image, how).map_or(Json::Null, |table| maps::json(&table));
    Json::Object(vec![
        ("descriptors", Json::List(volume_descriptors(image, how).iter().map(descriptor_json).collect())),
        ("maps", maps),
        ("label", Json::text(label)),
        ("start", Json::number(disc.volume.partition_start_sector())),
        ("partition", Json::number(disc.volume.partition_number())),
        ("root", Json::icb(disc.volume.root_directory_icb())),
        ("sectors", disc.log.json()),
    ])
    .print(out)
}

pub fn descriptor_json(one: &VolumeDescriptor) -> Json {
    Json::Object(vec![
        ("sector", Json::number(one.sector)),
        ("kind", Json::text(one.kind.to_string())),
        ("number", Json::number(one.number)),
        ("prevails", Json::Bool(one.prevails)),
    ])
}

pub fn say_found(found: &Found, path: &[u8], out: &mut impl Write) -> io::Result<()> {
    let icb = found.icb;
    writeln!(out, "path     {}", shown(path))?;
    let none = if path.starts_with(b"--icb") { "not known, it was given by its ICB" } else { "none, this is the root" };
    writeln!(out, "entry    {}", found.entry.as_ref().map_or(none.to_string(), listed))?;
    writeln!(out, "kind     {}", if found.is_directory { "directory" } else { "file" })?;
    let place = icb.location;
    writeln!(out, "icb      block {}, partition {}, {}, type {}", place.block, place.partition_ref, bytes(icb.length), icb.extent_type)
}

/// How the bytes are stored: in the entry itself, which has then no extents, or in extents. Where each begins is said of a volume with maps: else
/// that is the block and the start that `stat` says without a path.
fn say_extents(vault: Counted, icb: LongAd, embedded: usize, extents: &[AllocExtent], out: &mut impl Write) -> io::Result<()> {
    if extents.is_empty() {
        let storage = if embedded > 0 { format!("embedded, {}", bytes(embedded as u64)) } else { "no bytes, no extents".to_string() };
        return writeln!(out, "storage  {storage}");
    }
    writeln!(out, "storage  extents: {}", extents.len())?;
    extents.iter().try_for_each(|extent| {
        let kind = ["recorded", "not recorded", "not allocated"].get(usize::from(extent.extent_type)).unwrap_or(&"a continuation");
        let partition = extent.partition_ref.map_or("none".to_string(), |number| number.to_string());
        let (length, number, block) = (bytes(extent.length), extent.extent_type, extent.block);
        let sector =
            vault.how().maps.then(|| vault.extent_sector(icb, extent).map_or(", in no partition".to_string(), |n| format!(", sector {n}")));
        writeln!(out, "extent   {length}, type {number} ({kind}), block {block}, partition {partition}{}", sector.unwrap_or_default())
    })
}
