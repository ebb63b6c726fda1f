//! Records on a pipe: numbers little-endian, nothing padded, as port.c says.

use super::calls::{Icb, Query, Volume};
use std::io::{Read, Result};

pub fn put(to: &mut Vec<u8>, v: u64, n: usize) {
    to.extend(&v.to_le_bytes()[..n]);
}

pub fn put_icb(to: &mut Vec<u8>, icb: &Icb) {
    put(to, icb.length as u64, 4);
    put(to, icb.extent_type as u64, 1);
    put(to, icb.block as u64, 4);
    put(to, icb.partition as u64, 2);
    to.extend(icb.implementation_use);
}

pub fn put_volume(to: &mut Vec<u8>, v: &Volume) {
    put(to, v.start as u64, 4);
    put(to, v.partition as u64, 2);
    put(to, v.checked as u64, 4);
    put(to, v.maps as u64, 4);
    v.volumes.iter().chain(&v.numbers).for_each(|n| put(to, *n as u64, 2));
    v.starts.iter().for_each(|n| put(to, *n as u64, 4));
    put_icb(to, &v.root);
    to.extend(v.label);
}

/// Volume, ICB, room, work, the choices, the places of the rows, levels, budget, path, shelf and images.
pub fn put_query(to: &mut Vec<u8>, q: &Query) {
    put_volume(to, &q.volume);
    put_icb(to, &q.icb);
    put(to, q.room as u64, 4);
    put(to, q.work as u64, 4);
    put(to, q.how as u64, 4);
    put(to, q.matching as u64, 4);
    q.places.iter().for_each(|places| put(to, *places as u64, 4));
    put(to, q.levels as u64, 4);
    put(to, q.most, 8);
    put(to, q.path.len() as u64, 4);
    to.extend(&q.path);
    put(to, q.shelf.len() as u64, 4);
    q.shelf.iter().for_each(|n| put(to, *n, 8));
    put(to, q.images, 8);
}

pub fn bytes(from: &mut impl Read, n: usize) -> Result<Vec<u8>> {
    let mut b = vec![0; n];
    from.read_exact(&mut b)?;
    Ok(b)
}

pub fn number(from: &mut impl Read, n: usize) -> Result<u64> {
    let mut b = [0; 8];
    from.read_exact(&mut b[..n])?;
    Ok(u64::from_le_bytes(b))
}

pub fn icb(from: &mut impl Read) -> Result<Icb> {
    Ok(Icb {
        length: number(from, 4)? as u32,
        extent_type: number(from, 1)? as u8,
        block: number(from, 4)? as u32,
        partition: number(from, 2)? as u16,
        implementation_use: bytes(from, 6)?.try_into().unwrap(),
    })
}

/// Four numbers of so many bytes.
fn four(from: &mut impl Read, n: usize) -> Result<[u64; 4]> {
    Ok([number(from, n)?, number(from, n)?, number(from, n)?, number(from, n)?])
}

pub fn volume(from: &mut impl Read) -> Result<Volume> {
    Ok(Volume {
        start: number(from, 4)? as u32,
        partition: number(from, 2)? as u16,
        checked: number(from, 4)? as u32,
        maps: number(from, 4)? as u32,
        volumes: four(from, 2)?.map(|n| n as u16),
        numbers: four(from, 2)?.map(|n| n as u16),
        starts: four(from, 4)?.map(|n| n as u32),
        root: icb(from)?,
        label: bytes(from, 32)?.try_into().unwrap(),
    })
}
