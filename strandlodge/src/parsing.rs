//! The calls of include/records.h, wrapped.
//!
//! Why they are sound: the header requires that the lent pieces don't overlap and that their pointers aren't null. That
//! holds for a shared slice and a vector of this module's own. The calls stay within the lengths that they are given,
//! whatever the bytes and the values are.
#![allow(unsafe_code)]

use crate::answer::{Refusal, Refused, Result};
use strandlodge_sys::records::*;

/// The value, if the answer is 0. No record asks for a sector.
fn done<T>(answer: u64, value: T) -> Result<T> {
    Refusal::of(answer).map_or(Ok(value), |why| Err(Refused { why, sectors: 0 }))
}

macro_rules! parsers {
    ($($name:ident: $call:ident gives $record:ty;)*) => {$(
        pub fn $name(bytes: &[u8]) -> Result<$record> {
            // SAFETY: the head of this module; nothing is lent for writing.
            let answer = unsafe { $call(bytes.as_ptr(), bytes.len()) };
            done(answer.answer, answer.value)
        }
    )*};
}

macro_rules! encoders {
    ($($name:ident: $call:ident of $record:ty, $size:literal;)*) => {$(
        pub fn $name(value: $record) -> [u8; $size] {
            // SAFETY: values alone cross.
            unsafe { $call(value) }.bytes
        }
    )*};
}

parsers! {
    extent_ad: records_parse_extent_ad gives ExtentAd;
    short_ad: records_parse_short_ad gives ShortAd;
    lb_addr: records_parse_lb_addr gives LbAddr;
    long_ad: records_parse_long_ad gives LongAd;
    ext_ad: records_parse_ext_ad gives ExtAd;
    tag: records_parse_tag gives Tag;
    aed: records_parse_aed gives Aed;
    icb_tag: records_parse_icb_tag gives IcbTag;
    file_entry: records_parse_file_entry gives FileEntry;
    file_identifier: records_parse_file_identifier gives FileIdentifier;
    anchor: records_parse_anchor gives Anchor;
    primary_volume: records_parse_primary_volume gives PrimaryVolume;
    partition: records_parse_partition gives Partition;
    logical_volume: records_parse_logical_volume gives LogicalVolume;
    file_set: records_parse_file_set gives FileSet;
}

encoders! {
    extent_ad_bytes: records_encode_extent_ad of ExtentAd, 8;
    short_ad_bytes: records_encode_short_ad of ShortAd, 8;
    lb_addr_bytes: records_encode_lb_addr of LbAddr, 6;
    long_ad_bytes: records_encode_long_ad of LongAd, 16;
    ext_ad_bytes: records_encode_ext_ad of ExtAd, 20;
    tag_bytes: records_encode_tag of Tag, 16;
    aed_bytes: records_encode_aed of Aed, 24;
}

type Decoder = unsafe extern "C" fn(*const u8, usize, *mut u8, usize) -> Written;

fn decoded(call: Decoder, bytes: &[u8]) -> Result<String> {
    // A name of 8 bits a letter may have twice as many bytes as recorded.
    let mut name = vec![0; 2 * bytes.len()];
    // SAFETY: the head of this module; the vector is this function's, and so are the two calls that are handed in.
    let written = unsafe { call(bytes.as_ptr(), bytes.len(), name.as_mut_ptr(), name.len()) };
    name.truncate(written.length as usize);
    done(written.answer, String::from_utf8_lossy(&name).into_owned())
}

pub fn dstring(bytes: &[u8]) -> Result<String> {
    decoded(records_decode_dstring, bytes)
}

pub fn dstring_field(bytes: &[u8]) -> Result<String> {
    decoded(records_decode_dstring_field, bytes)
}

/// The place check.
pub fn is_in_place(tag: Tag, sector: u64, block: u32) -> bool {
    // SAFETY: values alone cross.
    unsafe { records_tag_in_place(tag, sector, block) }
}

/// The body check: `bytes` start at the descriptor.
pub fn has_right_body(tag: Tag, bytes: &[u8]) -> bool {
    // SAFETY: the head of this module; nothing is lent for writing.
    unsafe { records_tag_body(tag, bytes.as_ptr(), bytes.len()) }
}
