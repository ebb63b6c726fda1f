//! The stored outputs of the programs `asker` and `survey_cases`, which models in another language compute, held to the original: to its own
//! calls, to the walk over its listings and reads where a call or a choice isn't its own, and to the original with the body check behind its
//! parser of tags.

use super::calls::{Call, Icb, PLACE, PLENTY, Query, Values, Volume};
use super::expect::expected;
use super::original::Original;
use super::{sparse, wire};
use std::fs;
use std::io::Result;
use std::path::Path;
use strandlodge_sys::asked::{self, FILES};
use strandlodge_sys::replay::{Asked, Counts, replay, sections};
use strandlodge_sys::said::Said;
use strandlodge_sys::vault::{NO_SLOT, UNLIMITED};

// ---- asker

/// A stored query as a call is asked here.
fn query(asked: &Asked, call: Call) -> Query {
    let q = asked.query;
    Query {
        icb: Icb::of(q.icb),
        path: q.text.clone(),
        matching: q.matching,
        room: if call == Call::Extents { q.slots } else { q.room } as usize,
        work: q.work as usize,
        places: [q.slots as usize, q.answers as usize],
        how: q.volume,
        levels: q.levels,
        most: q.most,
        ..Query::of(call, asked.volume.into())
    }
}

/// The calls of which the original was not asked as it stands: a d-string with id 254 or 255 was reached, or an information length was absurd
/// and was lowered.
#[derive(Default)]
struct Beside {
    by_the_rule: usize,
    lowered: usize,
}

/// What the original says; nothing of a show that has more paths than are walked.
fn said(asked: &Asked, beside: &mut Beside) -> Option<Said> {
    let call = match asked.call {
        asked::Call::Runs => return Some(runs(asked)),
        asked::Call::FailedAt => Call::Failed,
        asked::Call::PartAt => Call::Part,
        call => Call::ALL[call as usize],
    };
    let e = expected(asked.image, &query(asked, call));
    beside.by_the_rule += usize::from(e.by_the_rule);
    beside.lowered += usize::from(e.absurd);
    let Values { answer, count, length, place, volume, icb, written, rows } = e.values;
    let part = |whole: &[u8]| whole[place as usize..][..length as usize].to_vec();
    let bytes = match call {
        Call::Failed => part(&asked.query.text),
        Call::Part => part(asked.image),
        _ => written,
    };
    let number = |b: &[u8]| u64::from(u32::from_le_bytes(b.try_into().unwrap()));
    let slots =
        if call == Call::Extents { bytes.chunks(16).map(|slot| slot.chunks(4).map(number).collect()).collect() } else { Vec::new() };
    let items: Vec<(u64, u64)> = rows.into_iter().map(|(length, answer)| (length, answer.into())).collect();
    let said = Said { length, at: place, volume: volume.into(), icb: icb.recorded(), bytes, slots, ..Said::of(answer, count) };
    (!e.beyond).then(|| said.with_rows(&items, asked.query))
}

/// Where an embedded file stands, or each extent of another, by the original's entry.
fn stands(image: &[u8], v: Volume, icb: Icb) -> Vec<(u64, u64)> {
    let came = Original::new(image, v).entry(icb);
    let entry = came.value.expect("a file that is read has an entry");
    if let Some((at, length)) = Original::embedded(&entry) {
        return vec![(came.asked[0] * 2048 + at as u64, length as u64)];
    }
    let mapped = |reference: u16| v.starts.get(usize::from(reference)).copied().unwrap_or_default();
    let start = |reference: Option<u16>| if v.maps == 0 { v.start } else { mapped(reference.unwrap_or(icb.partition)) };
    let extents = Original::extents(&entry);
    extents.iter().map(|x| ((u64::from(start(x.partition_ref)) + u64::from(x.block)) * 2048, x.length.into())).collect()
}

/// The runs of a file, which the original has no call for: its extents, as far as it reads them. Joined they must be what it reads.
fn runs(asked: &Asked) -> Said {
    let q = Query { room: PLENTY, ..query(asked, Call::Read) };
    let read = expected(asked.image, &q).values;
    if read.answer != 0 {
        return Said::of(read.answer, read.count);
    }
    let (mut runs, mut left) = (Vec::new(), read.length);
    for (at, length) in stands(asked.image, q.volume, q.icb) {
        let length = length.min(left);
        left -= length;
        if length > 0 {
            runs.push(vec![at, length]);
        }
    }
    let joined: Vec<&[u8]> = runs.iter().map(|run| &asked.image[run[0] as usize..][..run[1] as usize]).collect();
    assert!(joined.concat() == read.written, "the original's extents aren't what it reads");
    if runs.len() > asked.query.slots as usize {
        return Said::of(NO_SLOT, read.count);
    }
    Said::of(0, read.count).with_slots(runs)
}

/// The lines of each call that were compared, and passed over.
fn table(counts: &Counts) -> String {
    let passed = |call| counts.passed.get(&call).copied().unwrap_or_default();
    asked::Call::ALL
        .iter()
        .map(|call| format!("\n{:10}{:>7} lines, {} passed over", call.name(), counts.of(*call), passed(*call)))
        .collect()
}

/// Every file of `asker`. A call of which no line is compared is a fault.
fn of_asker(folder: &Path, stored: &str) -> Result<std::result::Result<String, String>> {
    let (sections, mut all, mut beside) = (sections(stored), Counts::default(), Beside::default());
    if !sections.iter().map(|(name, _)| name).eq(&FILES) {
        return Ok(Err(format!("not the files {FILES:?}")));
    }
    for (name, lines) in sections {
        match replay(&fs::read(folder.join("data").join(name))?, lines, |asked| said(asked, &mut beside)) {
            Ok(counts) => all.add(&counts),
            Err(what) => return Ok(Err(format!("{name}: {what}"))),
        }
    }
    let unasked: Vec<&str> = asked::Call::ALL.into_iter().filter(|call| all.of(*call) == 0).map(asked::Call::name).collect();
    if !unasked.is_empty() {
        return Ok(Err(format!("no line is compared of {}", unasked.join(", "))));
    }
    let asked = format!("{} images, {} queries, answered as by what the original reads", all.images, all.queries);
    let beside = format!("{} calls by the rule on ids 254 and 255, {} with an absurd length lowered", beside.by_the_rule, beside.lowered);
    Ok(Ok(format!("{asked}; {beside}{}", table(&all))))
}

// ---- survey_cases

/// The next bytes behind their length, which has so many bytes.
fn sized(from: &mut &[u8], bytes: usize) -> Result<Vec<u8>> {
    let n = wire::number(from, bytes)? as usize;
    wire::bytes(from, n)
}

/// The places of a row of figures, each with its figures that aren't 0, and their marks.
fn places(row: &[u8]) -> Vec<String> {
    let numbers: Vec<u64> = row.chunks_exact(8).map(|b| u64::from_le_bytes(b.try_into().unwrap())).collect();
    let figure = |(i, pair): (usize, &[u64])| match *pair {
        [0, 0] => String::new(),
        [n, 0] => format!(" {i}:{n}"),
        [n, mark] => format!(" {i}:{n}!{mark}"),
        _ => unreachable!("a place has pairs"),
    };
    numbers.chunks_exact(PLACE).map(|place| format!("place{}", place.chunks(2).enumerate().map(figure).collect::<String>())).collect()
}

/// What `survey_cases` prints of a query: a survey of the shelf, or a total.
fn survey(shelf: &[u8], from: &mut &[u8]) -> Result<Vec<String>> {
    let [is_total, how, numbers, work] = [0; 4].map(|_| wire::number(from, 4));
    let (is_total, how, numbers, work) = (is_total? == 1, how? as u32, numbers? as usize, work? as usize);
    let (most, n) = (wire::number(from, 8)?, wire::number(from, 4)?);
    let given = (0..n).map(|_| wire::number(from, 8)).collect::<Result<Vec<u64>>>()?;
    if is_total {
        let mut row = vec![u64::from_le_bytes([0xa5; 8]); numbers];
        row.iter_mut().zip(&given[1..]).for_each(|(to, n)| *to = *n);
        let v = expected(shelf, &Query::total(row, given[0])).values;
        let kept = v.written[numbers / PLACE * PLACE * 8..].chunks(8).filter(|b| **b == [0xa5; 8]).count();
        let mut lines = vec![format!("total {} numbers {numbers}", given[0]), format!("answer {} kept {kept}", v.answer)];
        lines.extend(places(&v.written));
        return Ok(lines);
    }
    let v = expected(shelf, &Query::survey(how, &given).with(numbers, work).lent(most)).values;
    let lengths: String = given.iter().map(|n| format!(" {n}")).collect();
    let kept = numbers - v.written.len() / 8;
    let budget = if most == UNLIMITED { String::new() } else { format!(" most {most}") };
    let asked = format!("survey how {how} numbers {numbers} work {work}{budget} lengths{lengths}");
    let mut lines = vec![asked, format!("answer {} kept {kept} zero", v.answer)];
    lines.extend(places(&v.written));
    Ok(lines)
}

/// The lines of `survey_cases`, and how many queries they are of.
fn of_shelves(mut from: &[u8]) -> Result<(Vec<String>, usize)> {
    let (mut wanted, mut queries) = (Vec::new(), 0);
    while !from.is_empty() {
        wanted.push(format!("shelf {}", String::from_utf8_lossy(&sized(&mut from, 2)?)));
        let shelf = sparse::expand(&sized(&mut from, 4)?).expect("a packed shelf");
        let all = sized(&mut from, 4)?;
        let mut all = &all[..];
        while !all.is_empty() {
            wanted.extend(survey(&shelf, &mut all)?);
            queries += 1;
        }
    }
    Ok((wanted, queries))
}

/// Every shelf.
fn of_surveys(folder: &Path, stored: &str) -> Result<std::result::Result<String, String>> {
    let (wanted, queries) = of_shelves(&fs::read(folder.join("data/shelves"))?)?;
    let mut stored = stored.lines();
    let wrong = wanted.iter().find(|line| stored.next() != Some(line));
    Ok(match (wrong, stored.next()) {
        (None, None) => Ok(format!("{queries} queries, answered as by what the original reads")),
        (Some(line), _) => Err(format!("not as stored: {line}")),
        (None, Some(line)) => Err(format!("stored behind the end: {line}")),
    })
}

/// Holds the output stored in a program's folder. Says what was compared, or what its first wrong line is.
pub fn held(folder: &Path) -> Result<std::result::Result<String, String>> {
    let stored = fs::read_to_string(folder.join("stdout"))?;
    match folder.file_name().and_then(|name| name.to_str()) {
        Some("survey_cases") => of_surveys(folder, &stored),
        _ => of_asker(folder, &stored),
    }
}
