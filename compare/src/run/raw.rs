//! The calls of include/records.h: what is asked, and what was answered.

use super::raw_records::*;

macro_rules! calls {
    ($($call:ident $name:literal)*) => {
        #[derive(Clone, Copy, PartialEq, Eq, Debug, PartialOrd, Ord)]
        #[repr(u8)]
        pub enum RawCall {
            $($call),*
        }

        impl RawCall {
            pub const ALL: &[RawCall] = &[$(RawCall::$call),*];

            pub fn name(self) -> &'static str {
                match self {
                    $(RawCall::$call => $name),*
                }
            }
        }
    };
}

// In the order of port.c. What is encoded stands in the order in which it is parsed.
calls! {
    ParseExtentAd "parse_extent_ad"
    ParseShortAd "parse_short_ad"
    ParseLbAddr "parse_lb_addr"
    ParseLongAd "parse_long_ad"
    ParseExtAd "parse_ext_ad"
    ParseTag "parse_tag"
    ParseAed "parse_aed"
    ParseAnchor "parse_anchor"
    ParsePrimaryVolume "parse_primary_volume"
    ParsePartition "parse_partition"
    ParseLogicalVolume "parse_logical_volume"
    ParseFileSet "parse_file_set"
    ParseIcbTag "parse_icb_tag"
    ParseFileEntry "parse_file_entry"
    ParseFileIdentifier "parse_file_identifier"
    DecodeDstring "decode_dstring"
    DecodeDstringField "decode_dstring_field"
    TagInPlace "tag_in_place"
    TagBody "tag_body"
    Crc "crc"
    EncodeExtentAd "encode_extent_ad"
    EncodeShortAd "encode_short_ad"
    EncodeLbAddr "encode_lb_addr"
    EncodeLongAd "encode_long_ad"
    EncodeExtAd "encode_ext_ad"
    EncodeTag "encode_tag"
    EncodeAed "encode_aed"
}

use RawCall::*;

impl RawCall {
    pub fn is_decode(self) -> bool {
        matches!(self, DecodeDstring | DecodeDstringField)
    }

    /// What it parses begins with a tag.
    pub fn has_tag(self) -> bool {
        self >= ParseTag && self < DecodeDstring && self != ParseIcbTag
    }

    /// The call that parses what this one encodes.
    pub fn parses(self) -> Option<RawCall> {
        (self >= EncodeExtentAd).then(|| RawCall::ALL[self as usize - EncodeExtentAd as usize])
    }

    /// The numbers that it can be answered with. Encoding has none and a CRC has none, and they count as done; of the two checks a yes is 1.
    pub fn numbers(self) -> &'static [u64] {
        match self {
            DecodeDstring | DecodeDstringField => &[0, 2, 5],
            TagInPlace | TagBody => &[0, 1],
            Crc => &[0],
            _ if self.parses().is_some() => &[0],
            _ => &[0, 2],
        }
    }
}

/// Bytes to be parsed, decoded or summed, or a record to be encoded, flat; for the place check a tag, flat, with a sector and a block behind it,
/// and for the body check one with the bytes at hand.
pub struct RawAsk {
    pub call: RawCall,
    pub input: Vec<u8>,
    /// How many bytes are lent for a name.
    pub room: usize,
    /// Tells the pattern that lent memory comes full of.
    pub salt: u8,
}

/// The answer flat, with what was written behind it; or what was encoded. `held` has a bit for the guards of the lent output, and one for
/// its bytes behind the answer.
#[derive(PartialEq, Eq)]
pub struct RawGiven {
    pub said: Vec<u8>,
    pub held: u8,
}

pub const RAW_HELD: u8 = 3;

fn told<T: Flat>(mut said: &[u8]) -> String {
    let record = T::take(&mut said);
    format!("{record:?} {said:02x?}")
}

/// An answer, for people.
pub fn shown(call: RawCall, said: &[u8]) -> String {
    match call {
        ParseExtentAd => told::<Answer<ExtentAd>>(said),
        ParseShortAd => told::<Answer<ShortAd>>(said),
        ParseLbAddr => told::<Answer<LbAddr>>(said),
        ParseLongAd => told::<Answer<LongAd>>(said),
        ParseExtAd => told::<Answer<ExtAd>>(said),
        ParseTag => told::<Answer<Tag>>(said),
        ParseAed => told::<Answer<Aed>>(said),
        ParseAnchor => told::<Answer<Anchor>>(said),
        ParsePrimaryVolume => told::<Answer<PrimaryVolume>>(said),
        ParsePartition => told::<Answer<Partition>>(said),
        ParseLogicalVolume => told::<Answer<LogicalVolume>>(said),
        ParseFileSet => told::<Answer<FileSet>>(said),
        ParseIcbTag => told::<Answer<IcbTag>>(said),
        ParseFileEntry => told::<Answer<FileEntry>>(said),
        ParseFileIdentifier => told::<Answer<FileIdentifier>>(said),
        DecodeDstring | DecodeDstringField => told::<Written>(said),
        TagInPlace | TagBody | Crc => told::<u64>(said),
        _ => format!("{said:02x?}"),
    }
}
