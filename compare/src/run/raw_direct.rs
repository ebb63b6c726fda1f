//! The archive of records_c linked in: the calls of include/records.h, with lent memory as port.c lends it.

use super::lending::{GUARD, Lending};
use super::raw::{RawAsk, RawCall, RawGiven};
use super::raw_records::*;

type Bytes = *const u8;

fn parse<T: Flat>(call: unsafe extern "C" fn(Bytes, usize) -> Answer<T>, from: Bytes, n: usize) -> Vec<u8> {
    // The header's word: the piece is as long as said.
    flat(&unsafe { call(from, n) })
}

fn encode<T: Flat, const N: usize>(call: unsafe extern "C" fn(T) -> Encoded<N>, mut record: &[u8]) -> Vec<u8> {
    // Any value of the record may be encoded.
    unsafe { call(T::take(&mut record)) }.bytes.to_vec()
}

fn is_in_place(mut given: &[u8]) -> Vec<u8> {
    let (tag, sector, block) = (Tag::take(&mut given), u64::take(&mut given), u32::take(&mut given));
    // Any values may be given.
    flat(&u64::from(unsafe { records_tag_in_place(tag, sector, block) }))
}

/// A tag, and the bytes at hand behind it.
fn has_right_body(mut given: &[u8]) -> Vec<u8> {
    let tag = Tag::take(&mut given);
    // The piece is as long as said.
    flat(&u64::from(unsafe { records_tag_body(tag, given.as_ptr(), given.len()) }))
}

fn crc(from: Bytes, n: usize) -> Vec<u8> {
    // The header's word: the piece is as long as said.
    [flat(&0u64), flat(&unsafe { records_crc(from, n) })].concat()
}

fn decode(
    call: unsafe extern "C" fn(Bytes, usize, *mut u8, usize) -> Written,
    from: Bytes,
    n: usize,
    out: &mut Lending,
) -> (Vec<u8>, usize) {
    let room = out.length;
    // The header's word: the pieces are as long as said, and don't overlap.
    let r = unsafe { call(from, n, out.lent(), room) };
    let n = if r.answer == 0 { (r.length as usize).min(room) } else { 0 };
    let mut said = flat(&r);
    said.extend(&out.bytes()[GUARD..GUARD + n]);
    (said, n)
}

fn make(ask: &RawAsk, from: Bytes, out: &mut Lending) -> (Vec<u8>, usize) {
    use RawCall::*;
    let n = ask.input.len();
    let said = match ask.call {
        ParseExtentAd => parse(records_parse_extent_ad, from, n),
        ParseShortAd => parse(records_parse_short_ad, from, n),
        ParseLbAddr => parse(records_parse_lb_addr, from, n),
        ParseLongAd => parse(records_parse_long_ad, from, n),
        ParseExtAd => parse(records_parse_ext_ad, from, n),
        ParseTag => parse(records_parse_tag, from, n),
        ParseAed => parse(records_parse_aed, from, n),
        ParseAnchor => parse(records_parse_anchor, from, n),
        ParsePrimaryVolume => parse(records_parse_primary_volume, from, n),
        ParsePartition => parse(records_parse_partition, from, n),
        ParseLogicalVolume => parse(records_parse_logical_volume, from, n),
        ParseFileSet => parse(records_parse_file_set, from, n),
        ParseIcbTag => parse(records_parse_icb_tag, from, n),
        ParseFileEntry => parse(records_parse_file_entry, from, n),
        ParseFileIdentifier => parse(records_parse_file_identifier, from, n),
        DecodeDstring => return decode(records_decode_dstring, from, n, out),
        DecodeDstringField => return decode(records_decode_dstring_field, from, n, out),
        TagInPlace => is_in_place(&ask.input),
        TagBody => has_right_body(&ask.input),
        Crc => crc(from, n),
        EncodeExtentAd => encode(records_encode_extent_ad, &ask.input),
        EncodeShortAd => encode(records_encode_short_ad, &ask.input),
        EncodeLbAddr => encode(records_encode_lb_addr, &ask.input),
        EncodeLongAd => encode(records_encode_long_ad, &ask.input),
        EncodeExtAd => encode(records_encode_ext_ad, &ask.input),
        EncodeTag => encode(records_encode_tag, &ask.input),
        EncodeAed => encode(records_encode_aed, &ask.input),
    };
    (said, 0)
}

pub fn answer(ask: &RawAsk) -> RawGiven {
    let mut input = Lending::new(ask.input.len(), ask.salt);
    let end = GUARD + ask.input.len();
    input.bytes()[GUARD..end].copy_from_slice(&ask.input);
    let mut out = Lending::new(ask.room, ask.salt);
    let (said, written) = make(ask, input.lent(), &mut out);
    let held = out.guarded() as u8 | (out.as_it_came(GUARD + written, GUARD + ask.room) as u8) << 1;
    RawGiven { said, held }
}
