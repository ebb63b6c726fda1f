//! An image that is given: every file and folder that the original lists on it, by each call, with bodies checked and without.

use super::calls::{Call, HELD, Icb, Query, Volume};
use super::expect::expected;
use super::original::{self, Original, icb};
use super::ours::{Ask, Noise, Ours};
use std::io::Result;

/// Work space for the directories.
const WORK: usize = 1 << 22;

/// Holds our answer to the original's; gives what differs.
fn same(ours: &mut dyn Ours, image: &[u8], q: &Query) -> Result<Option<String>> {
    let mut q = q.with(q.room, if q.call.has_work() { WORK } else { 0 });
    q.room = if q.call.has_room() { expected(image, &q).full } else { 0 };
    let e = expected(image, &q);
    let given = &ours.answers(&[Ask { query: &q, kept: None, salt: 1 }])?[0];
    let is_same = given.values == e.values && given.held == HELD;
    Ok((!is_same)
        .then(|| format!("{} {}: {} and {}", q.call.name(), String::from_utf8_lossy(&q.path), given.values.answer, e.values.answer)))
}

/// The files and folders on a volume with their paths, as the original lists them.
fn walked(image: &[u8], volume: Volume) -> Vec<(String, Icb)> {
    let (mut all, mut next) = (vec![(String::new(), volume.root)], 0);
    let mut folders = vec![0];
    while let Some(folder) = folders.get(next).copied() {
        let (above, at): &(String, Icb) = &all[folder];
        let (above, listed) = (above.clone(), Original::new(image, volume).list(*at).value.unwrap_or_default());
        for entry in listed {
            if entry.is_directory {
                folders.push(all.len());
            }
            all.push((format!("{above}/{}", entry.name), icb(entry.icb)));
        }
        next += 1;
    }
    all
}

/// How many queries were answered alike, and how many files and folders they are of; or the first that wasn't.
pub fn held(ours: &mut dyn Ours, image: &[u8]) -> Result<std::result::Result<(usize, usize), String>> {
    ours.load(image, Noise::Shifted(1));
    let volume = original::open(image).value.map_or(Volume::default(), |(volume, _)| volume);
    let mut queries = [Call::Probe, Call::Open, Call::Label].map(|call| Query::of(call, volume)).to_vec();
    queries.push(Query::survey(0, &[image.len() as u64]));
    let all = walked(image, volume);
    for (path, at) in &all {
        let along = [Call::Lookup, Call::Failed, Call::ReadPath].map(|call| Query::along(call, volume, path.as_bytes()));
        let on = [Call::List, Call::Read, Call::Measure, Call::Part, Call::Extents].map(|call| Query::on(call, volume, *at));
        queries.extend(along.into_iter().chain(on));
    }
    for q in &queries {
        for q in [q.clone(), q.checked()] {
            if let Some(what) = same(ours, image, &q)? {
                return Ok(Err(what));
            }
        }
    }
    Ok(Ok((2 * queries.len(), all.len())))
}
