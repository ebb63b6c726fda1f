//! What is said of a volume's partition maps.

use crate::failure::Failure;
use crate::json::Json;
use crate::names::shown;
use strandlodge::{Counted, How, MapForm, MapTable, Refusal, Refused, diagnose};

/// The lines of a map table: how many maps there are, and each with its reference.
pub fn lines(table: &MapTable) -> Vec<String> {
    if table.maps == 0 {
        return vec!["maps     none".to_string()];
    }
    let why = match table {
        _ if table.maps > MapTable::MOST => format!(": more than {} are not supported", MapTable::MOST),
        _ if !table.is_whole() => ": they are not completely inside their table, or it is not inside its sector".to_string(),
        _ => String::new(),
    };
    let head = format!("maps     {}, in {} bytes{why}", table.maps, table.length);
    let maps = table.found.iter().enumerate().map(|(i, form)| format!("map      {i}, {}", said(form)));
    [head].into_iter().chain(maps).collect()
}

fn said(form: &MapForm) -> String {
    match form {
        MapForm::Plain { volume, number, start: Some(start) } => format!("volume {volume}, partition {number}, sector {start}"),
        MapForm::Plain { volume, number, start: None } => {
            format!("volume {volume}, partition {number}: not supported, because no partition has that number")
        }
        MapForm::Other { kind, length, identifier } => {
            let name = if identifier.is_empty() { String::new() } else { format!(" ({})", shown(identifier)) };
            format!("type {kind}{name}, {length} bytes: not supported")
        }
    }
}

/// The maps of a table, for a document: those of another form have no partition.
pub fn json(table: &MapTable) -> Json {
    let one = |form: &MapForm| {
        Json::Object(match form {
            MapForm::Plain { volume, number, start } => vec![
                ("type", Json::number(1u8)),
                ("volume", Json::number(*volume)),
                ("partition", Json::number(*number)),
                ("sector", Json::maybe(*start, Json::number)),
            ],
            MapForm::Other { kind, length, identifier } => {
                vec![("type", Json::number(*kind)), ("length", Json::number(*length)), ("identifier", Json::text(shown(identifier)))]
            }
        })
    };
    Json::Object(vec![
        ("count", Json::number(table.maps)),
        ("bytes", Json::number(table.length)),
        ("found", Json::List(table.found.iter().map(one).collect())),
    ])
}

/// An opening that was refused, with what to try where the maps, or the descriptors with the highest numbers, would have led on.
pub fn refused(image: &[u8], how: How, name: &str, refused: Refused) -> Failure {
    let diagnosis = diagnose(image, how, &refused);
    let mut failure = Failure::with_number(refused, format!("{name}: {}", diagnosis.what()));
    let mapped = || Counted::open_as(image, How { maps: true, ..how }).is_ok();
    if refused.why == Refusal::Unsupported && !how.maps && mapped() {
        failure.says.iter_mut().for_each(|says| *says += "; --maps opens it, through its partition maps");
    }
    if !how.highest && Counted::open_as(image, How { highest: true, ..how }).is_ok() {
        failure.says.iter_mut().for_each(|says| *says += "; it was closed again later: --highest opens it");
    }
    failure.at(&diagnosis)
}

#[cfg(test)]
mod tests {
    use super::*;

    fn table(maps: u32, length: u32, found: Vec<MapForm>) -> Vec<String> {
        lines(&MapTable { maps, length, found })
    }

    #[test]
    fn each_form_has_its_line() {
        let plain = |start| MapForm::Plain { volume: 1, number: 5, start };
        let other = |kind, identifier: &str| MapForm::Other { kind, length: 64, identifier: identifier.into() };
        assert_eq!(table(0, 0, vec![]), ["maps     none"]);
        assert_eq!(
            table(2, 70, vec![plain(Some(288)), other(2, "*UDF Virtual\n")]),
            [
                "maps     2, in 70 bytes",
                "map      0, volume 1, partition 5, sector 288",
                "map      1, type 2 (*UDF Virtual\\u{a}), 64 bytes: not supported",
            ]
        );
        let lost = "map      0, volume 1, partition 5: not supported, because no partition has that number";
        assert_eq!(table(5, 30, vec![plain(None)]), ["maps     5, in 30 bytes: more than 4 are not supported", lost]);
        let cut = ": they are not completely inside their table, or it is not inside its sector";
        for (maps, length) in [(2, 11), (1, 1609), (4, u32::MAX)] {
            assert_eq!(table(maps, length, vec![]), [format!("maps     {maps}, in {length} bytes{cut}")]);
        }
        assert_eq!(table(1, 1608, vec![other(9, "")])[1], "map      0, type 9, 64 bytes: not supported");
    }
}
