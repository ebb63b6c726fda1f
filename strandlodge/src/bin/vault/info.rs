//! `info`: what a volume says of itself.
//!
//! What the calls don't give is read here from copies of single sectors: the domain of the logical volume descriptor (OSTA UDF 2.1.5.3) and the
//! integrity descriptor (ECMA-167 3/10.10, OSTA UDF 2.2.6). Nothing that is opened or read goes by it.

use crate::commands::{descriptor_json, line, standing};
use crate::disc::OpenDisc;
use crate::failure::Failure;
use crate::json::Json;
use crate::log::Log;
use crate::map::copied;
use crate::maps;
use crate::names::shown;
use crate::records;
use crate::steps::Rule;
use crate::style::Style;
use crate::walk::sector;
use std::io::Write;
use strandlodge::{How, Kind, MapTable, SECTOR_SIZE, VolumeDescriptor, map_table, probe_vrs, volume_descriptors};

/// Where in a logical volume descriptor its name, its domain's revision and the extent of the integrity sequence stand.
const NAME: std::ops::Range<usize> = 84..212;
const DOMAIN: std::ops::Range<usize> = 217..240;
const REVISION: usize = 240;
const INTEGRITY: usize = 432;

/// The domain whose revision is recorded there.
const UDF: &[u8] = b"*OSTA UDF Compliant";

/// The id of an integrity descriptor, and where its numbers stand.
const INTEGRITY_ID: u16 = 9;
const TYPE: usize = 28;
const NEXT: usize = 32;
const PARTITIONS: usize = 72;
const USE_LENGTH: usize = 76;
const TABLE: usize = 80;

/// So many descriptors of the integrity sequence are looked at: a disc may link them in a ring.
const MOST: usize = 10_000;

/// What an integrity descriptor says.
#[derive(Debug, PartialEq, Eq)]
struct Integrity {
    sector: u64,
    is_closed: bool,
    /// For each partition how many blocks are free, and how many it has; none where the disc doesn't say.
    space: Vec<(Option<u32>, Option<u32>)>,
    /// Files and directories, where they are recorded.
    counts: Option<(u32, u32)>,
}

/// What there is to say of a volume.
struct Volume {
    name: Option<String>,
    revision: Option<u16>,
    descriptors: Vec<VolumeDescriptor>,
    partitions: Vec<Partition>,
    maps: Option<MapTable>,
    integrity: Option<Integrity>,
}

/// A partition by the descriptor that prevails.
struct Partition {
    number: u16,
    start: u32,
    length: u32,
}

pub fn info(image: &[u8], how: How, name: &str, style: Style, out: &mut impl Write, log: &mut Log) -> Result<(), Failure> {
    let volume = Volume::of(image, how);
    let opened = OpenDisc::open(image, how, name, Rule::default(), log).and_then(|mut disc| disc.label());
    let sectors = image.len() as u64 / SECTOR_SIZE;
    // Where it can't be opened, what there is is printed all the same, and then why.
    let label = opened.as_ref().ok();
    if style.is_json {
        volume.json(&opened, sectors, probe_vrs(image)).print(out)?;
    } else {
        volume.lines(label, sectors, probe_vrs(image)).iter().try_for_each(|text| line(out, text))?;
    }
    opened.map(|_| ())
}

impl Volume {
    fn of(image: &[u8], how: How) -> Volume {
        // Through maps one partition descriptor of each number prevails, and every partition is to be shown.
        let descriptors = volume_descriptors(image, How { maps: true, ..how });
        let prevailing = |kind| descriptors.iter().filter(move |one| one.prevails && one.kind == kind);
        let logical = prevailing(Kind::LogicalVolume).next().and_then(|one| sector(image, one.sector)).map(copied);
        let partition = |one: &VolumeDescriptor| records::partition(sector(image, one.sector)?);
        let partitions = prevailing(Kind::Partition).filter_map(partition);
        let partitions = partitions.map(|(number, start, length)| Partition { number, start, length }).collect();
        Volume {
            name: logical.as_ref().and_then(|bytes| records::field(&bytes[NAME])),
            revision: logical.as_ref().and_then(|bytes| revision(bytes)),
            partitions,
            maps: map_table(image, how),
            integrity: logical.as_ref().and_then(|bytes| integrity(image, bytes)),
            descriptors: volume_descriptors(image, how),
        }
    }

    fn lines(&self, label: Option<&String>, sectors: u64, is_recognised: bool) -> Vec<String> {
        let none = || "not recorded".to_string();
        let mut lines = Vec::from([
            format!("label    {}", label.map_or_else(|| "the volume can't be opened".to_string(), |label| shown(label.as_bytes()))),
            format!("volume   {}", self.name.as_ref().map_or_else(none, |name| shown(name.as_bytes()))),
            format!("revision {}", self.revision.map_or_else(none, |revision| format!("UDF {}", dotted(revision)))),
            format!(
                "image    {sectors} sectors of {SECTOR_SIZE} bytes; recognition sequence: {}",
                if is_recognised { "yes" } else { "no" }
            ),
        ]);
        for Partition { number, start, length } in &self.partitions {
            lines.push(format!("start    sector {start}, partition {number}, {length} blocks"));
        }
        lines.extend(self.maps.iter().flat_map(maps::lines));
        lines.extend(self.descriptors.iter().filter(|one| one.prevails).map(standing));
        lines.extend(self.integrity.as_ref().map_or_else(|| vec!["state    not recorded".to_string()], Integrity::lines));
        lines
    }

    fn json(&self, opened: &Result<String, Failure>, sectors: u64, is_recognised: bool) -> Json {
        let partition = |one: &Partition| {
            Json::Object(vec![
                ("number", Json::number(one.number)),
                ("start", Json::number(one.start)),
                ("length", Json::number(one.length)),
            ])
        };
        Json::Object(vec![
            ("label", Json::maybe(opened.as_ref().ok(), Json::text)),
            ("refused", Json::maybe(opened.as_ref().err(), Failure::json)),
            ("volume", Json::maybe(self.name.as_ref(), Json::text)),
            ("revision", Json::maybe(self.revision, |revision| Json::text(dotted(revision)))),
            ("sectors", Json::number(sectors)),
            ("recognised", Json::Bool(is_recognised)),
            ("partitions", Json::List(self.partitions.iter().map(partition).collect())),
            ("maps", Json::maybe(self.maps.as_ref(), maps::json)),
            ("descriptors", Json::List(self.descriptors.iter().map(descriptor_json).collect())),
            ("integrity", Json::maybe(self.integrity.as_ref(), Integrity::json)),
        ])
    }
}

impl Integrity {
    fn lines(&self) -> Vec<String> {
        let mut lines = vec![format!("state    {}, by sector {}", if self.is_closed { "closed" } else { "open" }, self.sector)];
        for (reference, (free, size)) in self.space.iter().enumerate() {
            let blocks = match (free, size) {
                (Some(free), Some(size)) => format!("{free} of {size} blocks"),
                (Some(free), None) => format!("{free} blocks, of how many is not recorded"),
                (None, Some(size)) => format!("not recorded, of {size} blocks"),
                (None, None) => "not recorded".to_string(),
            };
            lines.push(format!("free     {blocks}, in the partition of map {reference}"));
        }
        lines.extend(self.counts.map(|(files, directories)| format!("holds    files: {files}, directories: {directories}")));
        lines
    }

    fn json(&self) -> Json {
        let space = |(free, size): &(Option<u32>, Option<u32>)| {
            Json::Object(vec![("free", Json::maybe(*free, Json::number)), ("blocks", Json::maybe(*size, Json::number))])
        };
        Json::Object(vec![
            ("sector", Json::number(self.sector)),
            ("closed", Json::Bool(self.is_closed)),
            ("space", Json::List(self.space.iter().map(space).collect())),
            ("files", Json::maybe(self.counts, |(files, _)| Json::number(files))),
            ("directories", Json::maybe(self.counts, |(_, directories)| Json::number(directories))),
        ])
    }
}

fn number(bytes: &[u8], at: usize) -> Option<u32> {
    Some(u32::from_le_bytes(*bytes.get(at..)?.first_chunk()?))
}

/// The revision of the domain, where that is UDF's.
fn revision(logical: &[u8]) -> Option<u16> {
    logical.get(DOMAIN)?.starts_with(UDF).then(|| number(logical, REVISION))?.map(|number| number as u16)
}

/// As it is said: hexadecimal, with two digits behind the point.
fn dotted(revision: u16) -> String {
    format!("{:x}.{:02x}", revision >> 8, revision & 0xff)
}

/// The last integrity descriptor of the sequence that a logical volume descriptor names.
fn integrity(image: &[u8], logical: &[u8]) -> Option<Integrity> {
    let mut extent = (number(logical, INTEGRITY)?, number(logical, INTEGRITY + 4)?);
    let (mut last, mut at) = (None, 0);
    for _ in 0..MOST {
        let (length, first) = extent;
        if at >= u64::from(length) / SECTOR_SIZE {
            break;
        }
        let place = u64::from(first) + at;
        let Some(bytes) = sector(image, place).map(copied) else {
            break;
        };
        if records::tag(&bytes).is_none_or(|tag| tag.id != INTEGRITY_ID) {
            break;
        }
        last = said(&bytes, place).or(last);
        let next = (number(&bytes, NEXT)?, number(&bytes, NEXT + 4)?);
        (extent, at) = if next.0 > 0 { (next, 0) } else { (extent, at + 1) };
    }
    last
}

/// What one says; none where its tables pass its sector.
fn said(bytes: &[u8], sector: u64) -> Option<Integrity> {
    let partitions = number(bytes, PARTITIONS)? as usize;
    if partitions > (bytes.len() - TABLE) / 8 {
        return None;
    }
    let known = |at| number(bytes, at).filter(|number| *number != u32::MAX);
    let space = (0..partitions).map(|i| (known(TABLE + 4 * i), known(TABLE + 4 * (partitions + i)))).collect();
    // The implementation use begins with an identifier of 32 bytes.
    let behind = TABLE + 8 * partitions + 32;
    let counts = (number(bytes, USE_LENGTH)? >= 46).then(|| Some((number(bytes, behind)?, number(bytes, behind + 4)?))).flatten();
    Some(Integrity { sector, is_closed: number(bytes, TYPE)? == 1, space, counts })
}

#[cfg(test)]
mod tests {
    use super::*;

    #[test]
    fn revisions_are_hexadecimal() {
        assert_eq!([0x102, 0x150, 0x200, 0x201, 0x260].map(dotted), ["1.02", "1.50", "2.00", "2.01", "2.60"]);
        let mut logical = vec![0; 2048];
        assert_eq!(revision(&logical), None);
        logical[DOMAIN][..UDF.len()].copy_from_slice(UDF);
        logical[REVISION] = 0x50;
        logical[REVISION + 1] = 1;
        assert_eq!((revision(&logical), revision(&logical[..200])), (Some(0x150), None));
    }

    #[test]
    fn tables_stand_in_their_sector() {
        let mut bytes = vec![0; 2048];
        bytes[PARTITIONS] = 2;
        bytes[TYPE] = 1;
        bytes[TABLE..][..16].copy_from_slice(&[7, 0, 0, 0, 255, 255, 255, 255, 9, 0, 0, 0, 8, 0, 0, 0]);
        let space = vec![(Some(7), Some(9)), (None, Some(8))];
        assert_eq!(said(&bytes, 5), Some(Integrity { sector: 5, is_closed: true, space, counts: None }));
        bytes[USE_LENGTH] = 46;
        bytes[TABLE + 16 + 32] = 3;
        bytes[TABLE + 16 + 36] = 4;
        assert_eq!(said(&bytes, 5).unwrap().counts, Some((3, 4)));
        let space = vec![(Some(7), Some(9)), (Some(7), None), (None, Some(9)), (None, None)];
        let lines = Integrity { sector: 5, is_closed: true, space, counts: None }.lines();
        let front = ["7 of 9 blocks", "7 blocks, of how many is not recorded", "not recorded, of 9 blocks", "not recorded"];
        let lines: Vec<&str> =
            lines[1..].iter().map(|line| line["free     ".len()..].split(", in the partition").next().unwrap()).collect();
        assert_eq!(lines, front);
        bytes[PARTITIONS + 3] = 255;
        assert_eq!(said(&bytes, 5), None);
    }
}
