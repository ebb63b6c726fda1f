//! Whether each descriptor of a disc is in place, and has the body that its tag has the CRC of.

use crate::commands::Manner;
use crate::disc::OpenDisc;
use crate::failure::Failure;
use crate::limit::Limit;
use crate::log::Log;
use crate::records;
use crate::report::{Place, Report};
use crate::steps::Rule;
use crate::walk::{Walk, sector};
use std::io::Write;
use strandlodge::{How, Kind, LbAddr, volume_descriptors};

const ANCHOR: u64 = 256;
const SECTOR: u32 = 2048;
const TERMINATOR: u16 = 8;

pub fn check(image: &[u8], manner: Manner, limit: Limit, name: &str, out: &mut impl Write, log: &mut Log) -> Result<(), Failure> {
    let (how, mut report, most) = (manner.how, Report::new(out, manner.style), limit.of(image.len() as u64));
    volume(image, &mut report)?;
    let vault = match OpenDisc::open(image, how, name, Rule::default(), log) {
        Ok(disc) => disc.volume,
        Err(failure) => return report.refused(&failure).and(Err(failure)),
    };
    let mut walk = Walk::new(image, vault, most.saturating_sub(log.total()), &mut report);
    walk.file_set(file_set(image, how))?;
    let is_whole = walk.root()?;
    log.sums(walk.sectors);
    report.end(name, if is_whole { None } else { Some(most) })
}

/// The anchor and the main sequence, to its end or its terminator, whose id alone counts: the sectors that opening asks for. What can't be
/// read here refuses the opening, which comes next.
fn volume<W: Write>(image: &[u8], report: &mut Report<W>) -> Result<(), Failure> {
    let anchor = sector(image, ANCHOR).unwrap_or_default();
    let Some((tag, first, length)) = records::anchor(anchor) else {
        return Ok(());
    };
    let of = || "the volume".to_string();
    report.descriptor(of, tag, Place::in_volume(ANCHOR), anchor)?;
    for i in 0..length / SECTOR {
        let at = u64::from(first) + u64::from(i);
        let Some(bytes) = sector(image, at) else {
            break;
        };
        if let Some(tag) = records::tag(bytes) {
            report.descriptor(of, tag, Place::in_volume(at), bytes)?;
        }
        if records::id(bytes) == Some(TERMINATOR) {
            break;
        }
    }
    Ok(())
}

/// The place of the file set that the prevailing logical volume descriptor names.
fn file_set(image: &[u8], how: How) -> Option<LbAddr> {
    let descriptors = volume_descriptors(image, how);
    let prevails = descriptors.iter().find(|one| one.kind == Kind::LogicalVolume && one.prevails)?;
    let (block, partition_ref) = records::file_set(sector(image, prevails.sector)?)?;
    Some(LbAddr { block, partition_ref })
}
