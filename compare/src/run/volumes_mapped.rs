//! Volumes at random whose partitions are found through maps: none to five of them, over partitions that lie apart or into each other, with files
//! whose entries, continuations and extents each stand in one of them.

use super::disc::Disc;
use super::random::Random;
use super::records::*;
use super::volumes::{Sort, directory};

/// Partition numbers: few, so that they meet references and each other.
const NUMBERS: [u16; 8] = [0, 1, 2, 3, 4, 5, 256, 65535];

/// A map, of the volume and of its partition: now and then of another form.
fn recorded(random: &mut Random, number: u16) -> Vec<u8> {
    let volume = *random.pick(&[0, 1, 1, 2, 65535]);
    let mut map = map(volume, number);
    if random.once_in(60) {
        map[random.below(2)] = *random.pick(&[0, 1, 2, 6, 7, 64]);
    }
    map
}

/// The table, and how many maps it is said to have.
fn table(random: &mut Random, numbers: &[u16]) -> (u32, Vec<u8>) {
    let mut bytes: Vec<u8> = numbers.iter().flat_map(|number| recorded(random, *number)).collect();
    let mut maps = numbers.len() as u32;
    match random.below(16) {
        // Bytes behind the maps; one too few; one map more or fewer than there are.
        0 => bytes.extend([0; 7]),
        1 => bytes.truncate(bytes.len().saturating_sub(1)),
        2 => maps += 1,
        3 => maps = maps.saturating_sub(1),
        _ => {}
    }
    (maps, bytes)
}

/// The main sequence: the partitions of all numbers, some of them again with another start, and not always all of them.
fn sequence(random: &mut Random, partitions: &[(u16, u32)], logical: Vec<u8>) -> Vec<Vec<u8>> {
    let mut all = vec![primary(&field(&name8(b"MAPPED"), 32)), logical];
    for (number, start) in partitions {
        if random.once_in(25) {
            continue;
        }
        if random.once_in(5) {
            all.push(partition(*number, start + random.below(3) as u32, 100));
        }
        all.push(partition(*number, *start, 1000));
    }
    while random.once_in(3) {
        let (i, j) = (random.below(all.len()), random.below(all.len()));
        all.swap(i, j);
    }
    if random.once_in(2) {
        all.iter_mut().for_each(|one| put32(one, 16, *random.pick(&[1, 2, 2, 3])));
    }
    all.push(tagged(8, 512));
    all
}

pub fn volume(random: &mut Random) -> Disc {
    let maps = *random.pick(&[0, 1, 1, 2, 2, 2, 3, 3, 4, 4, 5]);
    let numbers: Vec<u16> = (0..maps).map(|_| *random.pick(&NUMBERS)).collect();
    let mut partitions: Vec<(u16, u32)> = Vec::new();
    for number in numbers.iter().copied().chain([7]) {
        let start = if random.once_in(8) { random.between(200, 300) } else { random.between(40, 70) };
        if partitions.iter().all(|(known, _)| *known != number) {
            partitions.push((number, start as u32));
        }
    }
    let starts: Vec<u32> = numbers.iter().map(|number| partitions.iter().find(|(known, _)| known == number).unwrap().1).collect();
    let mut disc = Disc::new(starts.first().copied().unwrap_or(40), 0);
    if maps > 0 {
        disc.partitions = starts;
        disc.wandering = Some(Random::new(random.next()));
    }
    let depth = *random.pick(&[1, 2, 3]);
    let sort = *random.pick(&[Sort::Usual, Sort::Meeting]);
    let root = directory(random, &mut disc, "", depth, sort);
    disc.recognise(&[b"BEA01", b"NSR03", b"TEA01"]);
    let file_set = disc.put_file_set(root);
    let (count, table) = table(random, &numbers);
    let logical = mapped(logical(&field(&name8(b"volume"), 128), 2048, file_set), count, &table);
    let descriptors = sequence(random, &partitions, logical);
    disc.sequence(24, &descriptors, 0);
    // As it is meant: the mount's own partition is the file set's.
    for (i, start) in disc.partitions.iter().take(4).enumerate() {
        (disc.volume.numbers[i], disc.volume.starts[i]) = (numbers[i], *start);
    }
    disc.volume.maps = numbers.len() as u32;
    disc.icbs.extend([root, file_set]);
    disc
}
