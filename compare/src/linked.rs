//! The archive linked in: the calls of include/vault.h.

use crate::calls::{Call, PLACE, Query, Values};
use strandlodge_sys::vault::*;

/// What is lent for a call; the query says how long the path, the output, the rows and the work space are. The row of an extent list is the
/// output, aligned to four bytes, and that of figures, aligned to eight. A survey finds the lengths of its images in the row of lengths.
#[derive(Clone, Copy)]
pub struct Lends {
    pub image: *const u8,
    pub image_length: usize,
    pub path: *const u8,
    pub out: *mut u8,
    pub work: *mut u8,
    pub lengths: *mut u64,
    pub answers: *mut u32,
    /// Where a part or a component stands.
    pub place: *mut usize,
}

/// A survey says no length: it has a place for each image and one for the shelf.
fn surveyed(answer: u64, images: usize) -> Reply {
    Reply { answer, count: 0, length: if answer == 0 { (PLACE * (images + 1)) as u64 } else { 0 } }
}

/// Makes a call. What was written isn't among the values.
///
/// # Safety
///
/// The header's word: lent pieces are as long as said, and don't overlap.
pub unsafe fn make(q: &Query, lends: Lends) -> Values {
    let v = q.volume.into();
    let Lends { image: d, image_length: n, path: p, out, work, lengths, answers, place } = lends;
    let [l, a] = q.places;
    let (icb, m, matching, mut values) = (q.icb.into(), q.path.len(), q.matching, Values::default());
    // SAFETY: the caller's word; and a place is a number that was lent.
    let reply = unsafe {
        match q.call {
            Call::Probe => Reply { answer: vault_probe(d, n) as u64, count: 0, length: 0 },
            Call::Open => {
                let o = vault_open(d, n, q.how);
                values.volume = o.volume.into();
                Reply { answer: o.answer, count: o.count, length: 0 }
            }
            Call::Label => vault_label(d, n, q.how, out, q.room),
            Call::Lookup => {
                let f = vault_lookup(v, d, n, p, m, matching, work, q.work);
                values.icb = f.icb.into();
                Reply { answer: f.answer, count: f.count, length: 0 }
            }
            Call::Failed => vault_failed(v, d, n, p, m, matching, work, q.work, place),
            Call::List => vault_list(v, d, n, icb, out, q.room, work, q.work),
            Call::Read => vault_read(v, d, n, icb, out, q.room),
            Call::Part => vault_part(v, d, n, icb, place),
            Call::Extents => vault_extents(v, d, n, icb, out.cast(), q.room),
            Call::ReadPath => vault_read_path(v, d, n, p, m, matching, out, q.room, work, q.work),
            Call::ReadAll => vault_read_all(v, d, n, p, m, matching, out, q.room, lengths, l, answers, a, work, q.work),
            Call::Show => vault_show(v, d, n, q.levels, q.most, out, q.room, work, q.work),
            Call::Measure => vault_measure(v, d, n, icb),
            Call::Survey => surveyed(vault_survey(d, n, lengths, l, q.how, q.most, out.cast(), q.room, work, q.work), l),
            Call::Total => Reply { answer: vault_survey_total(out.cast(), q.room, q.images as usize), count: 0, length: 0 },
        }
    };
    if q.call.has_place() {
        // SAFETY: as above.
        values.place = unsafe { *place } as u64;
    }
    Values { answer: reply.answer, count: reply.count, length: reply.length, ..values }
}
