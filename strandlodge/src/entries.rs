//! The entries of files and directories: records that are more than a list of fields.

use crate::answer::{Refusal, Refused, Result};
use crate::parsing;
use crate::records::{AllocExtent, LbAddr, LongAd};
use crate::udf::{DescriptorTag, ExtAd, ShortAd, TagId, decode_dstring, malformed};
use strandlodge_sys::records as face;

/// An entry of a directory's bytes (4/14.4).
#[derive(Debug, Clone, PartialEq, Eq, Hash)]
#[allow(missing_docs)]
pub struct FileIdentifierDescriptor {
    pub tag: DescriptorTag,
    pub file_version_number: u16,
    pub file_characteristics: u8,
    /// Its name.
    pub identifier: String,
    pub icb: LongAd,
    /// The distance to the next one, in bytes.
    pub total_size: usize,
}

impl FileIdentifierDescriptor {
    /// Parses the descriptor at the front of these bytes.
    ///
    /// # Errors
    ///
    /// Refusal 2 if there are too few bytes, or they are not such a record.
    pub fn parse(bytes: &[u8]) -> Result<FileIdentifierDescriptor> {
        let raw = parsing::file_identifier(bytes)?;
        let name = bytes.get(raw.name_at..).and_then(|rest| rest.get(..raw.name_length)).unwrap_or_default();
        Ok(FileIdentifierDescriptor {
            tag: DescriptorTag::of_c(raw.tag)?,
            file_version_number: raw.file_version_number,
            file_characteristics: raw.file_characteristics,
            identifier: decode_dstring(name)?,
            icb: raw.icb.into(),
            total_size: raw.total_size,
        })
    }

    /// Whether it is deleted; then it is not listed.
    pub fn is_deleted(&self) -> bool {
        self.file_characteristics & 4 != 0
    }

    /// Whether it names a directory.
    pub fn is_directory(&self) -> bool {
        self.file_characteristics & 2 != 0
    }

    /// Whether it names the parent directory.
    pub fn is_parent(&self) -> bool {
        self.file_characteristics & 8 != 0
    }
}

/// The ICB tag of an entry (4/14.6).
#[derive(Debug, Clone, Copy, PartialEq, Eq, Hash)]
#[allow(missing_docs)]
pub struct IcbTag {
    pub prior_recorded_entries: u32,
    pub strategy_type: u16,
    pub strategy_parameter: u16,
    pub max_entries: u16,
    /// 4: a directory.
    pub file_type: u8,
    pub parent_icb: LbAddr,
    pub flags: u16,
}

impl IcbTag {
    /// Its size in bytes.
    pub const SIZE: usize = 20;

    /// Parses the record at the front of these bytes.
    ///
    /// # Errors
    ///
    /// Refusal 2 if there are too few bytes, or they are not such a record.
    pub fn parse(bytes: &[u8]) -> Result<IcbTag> {
        parsing::icb_tag(bytes).map(IcbTag::of_c)
    }

    fn of_c(tag: face::IcbTag) -> IcbTag {
        let face::IcbTag { prior_recorded_entries, strategy_type, strategy_parameter, max_entries, file_type, parent_icb, flags } = tag;
        IcbTag { prior_recorded_entries, strategy_type, strategy_parameter, max_entries, file_type, parent_icb: parent_icb.into(), flags }
    }
}

/// How an entry gives the place of its file (4/14.6.8).
#[derive(Debug, Clone, Copy, PartialEq, Eq, Hash)]
#[allow(missing_docs)]
pub enum AdType {
    Short,
    Long,
    Extended,
    EmbeddedInIcb,
}

impl AdType {
    /// From the flags of an ICB tag.
    ///
    /// # Errors
    ///
    /// Refusal 2 if the flags name no kind of area.
    pub fn from_flags(flags: u16) -> Result<AdType> {
        let kinds = [AdType::Short, AdType::Long, AdType::Extended, AdType::EmbeddedInIcb];
        kinds.get(usize::from(flags & 7)).copied().map_or_else(malformed, Ok)
    }
}

/// Where the descriptors of a file continue: a descriptor of type 3 (4/14.14.1.1).
#[derive(Debug, Clone, Copy, PartialEq, Eq, Hash)]
pub struct AdContinuation {
    /// In bytes.
    pub length: u32,
    /// The first block.
    pub block: u32,
    /// The partition, if the descriptor names one.
    pub partition_ref: Option<u16>,
}

/// The entry of a file or a directory (4/14.9), or an extended one (4/14.17), with the descriptors of its own area.
#[derive(Debug, Clone, PartialEq, Eq, Hash)]
#[allow(missing_docs)]
pub struct FileEntry {
    pub tag: DescriptorTag,
    pub icb_tag: IcbTag,
    pub uid: u32,
    pub gid: u32,
    pub permissions: u32,
    pub file_link_count: u16,
    pub record_format: u8,
    pub record_display_attributes: u8,
    pub record_length: u32,
    pub information_length: u64,
    pub logical_blocks_recorded: u64,
    /// Only an extended entry has one.
    pub object_size: Option<u64>,
    pub length_of_extended_attributes: u32,
    pub length_of_allocation_descriptors: u32,
    pub short_ads: Vec<ShortAd>,
    pub long_ads: Vec<LongAd>,
    pub ext_ads: Vec<ExtAd>,
    /// The file itself, if it is embedded.
    pub embedded_data: Vec<u8>,
    pub ad_type: AdType,
    /// Where the descriptors continue, if they do. It is not followed here; [`Disc::extents`](crate::Disc::extents)
    /// follows the whole chain.
    pub continuation: Option<AdContinuation>,
}

impl FileEntry {
    /// The size of an entry before its extended attributes.
    pub const PREFIX_SIZE: usize = 176;
    /// The same for an extended entry.
    pub const EFE_PREFIX_SIZE: usize = 216;

    /// Parses the entry at the front of these bytes. A compressed extent is refused with 4, as in a read.
    ///
    /// # Errors
    ///
    /// Refusal 2 if there are too few bytes, or they are not an entry; 4 if an extent is compressed.
    pub fn parse(bytes: &[u8]) -> Result<FileEntry> {
        let raw = parsing::file_entry(bytes)?;
        let area = bytes.get(raw.area_at..).and_then(|rest| rest.get(..raw.area_length)).unwrap_or_default();
        let mut entry = FileEntry {
            tag: DescriptorTag::of_c(raw.tag)?,
            icb_tag: IcbTag::of_c(raw.icb_tag),
            uid: raw.uid,
            gid: raw.gid,
            permissions: raw.permissions,
            file_link_count: raw.file_link_count,
            record_format: raw.record_format,
            record_display_attributes: raw.record_display_attributes,
            record_length: raw.record_length,
            information_length: raw.information_length,
            logical_blocks_recorded: raw.logical_blocks_recorded,
            object_size: raw.has_object_size.then_some(raw.object_size),
            length_of_extended_attributes: raw.length_of_extended_attributes,
            length_of_allocation_descriptors: raw.length_of_allocation_descriptors,
            short_ads: Vec::new(),
            long_ads: Vec::new(),
            ext_ads: Vec::new(),
            embedded_data: Vec::new(),
            ad_type: AdType::from_flags(raw.kind.into())?,
            continuation: None,
        };
        entry.read_area(area)?;
        Ok(entry)
    }

    /// Appends the descriptors of an area, up to the one that ends it.
    fn read_area(&mut self, area: &[u8]) -> Result<()> {
        let kind = self.ad_type;
        if kind == AdType::EmbeddedInIcb {
            self.embedded_data.extend_from_slice(area);
            return Ok(());
        }
        for one in Area::new(kind, area) {
            match one.map_err(Unread::refused)? {
                Descriptor::Short(ad) => self.short_ads.push(ad),
                Descriptor::Long(ad) => self.long_ads.push(ad),
                Descriptor::Extended(ad) => self.ext_ads.push(ad),
                Descriptor::Continuation(ad) => self.continuation = Some(ad),
            }
        }
        Ok(())
    }

    /// The extents of its own area.
    pub fn extents(&self) -> Vec<AllocExtent> {
        let short = self.short_ads.iter().map(|ad| Descriptor::Short(*ad));
        let long = self.long_ads.iter().map(|ad| Descriptor::Long(*ad));
        let extended = self.ext_ads.iter().map(|ad| Descriptor::Extended(*ad));
        short.chain(long).chain(extended).filter_map(Descriptor::extent).collect()
    }

    /// Whether its file type is that of a directory. The calls on a volume don't look at it.
    pub fn is_directory(&self) -> bool {
        self.icb_tag.file_type == 4
    }

    /// Whether it is an extended entry.
    pub fn is_extended(&self) -> bool {
        self.tag.id == TagId::ExtendedFileEntry
    }
}

/// A descriptor of an area.
#[derive(Debug, Clone, Copy, PartialEq, Eq)]
pub(crate) enum Descriptor {
    Short(ShortAd),
    Long(LongAd),
    Extended(ExtAd),
    Continuation(AdContinuation),
}

impl Descriptor {
    /// Parses the descriptor of this kind at the front, with its length.
    fn parse(kind: AdType, bytes: &[u8]) -> Result<(u32, Descriptor)> {
        let next = |length, block, partition_ref| Descriptor::Continuation(AdContinuation { length, block, partition_ref });
        Ok(match kind {
            AdType::Short => match ShortAd::parse(bytes)? {
                ad if ad.extent_type == 3 => (ad.length, next(ad.length, ad.block_location, None)),
                ad => (ad.length, Descriptor::Short(ad)),
            },
            AdType::Long => match LongAd::parse(bytes)? {
                ad if ad.extent_type == 3 => (ad.length, next(ad.length, ad.location.block, Some(ad.location.partition_ref))),
                ad => (ad.length, Descriptor::Long(ad)),
            },
            AdType::Extended | AdType::EmbeddedInIcb => match ExtAd::parse(bytes)? {
                ad if ad.extent_type == 3 => (ad.length, next(ad.length, ad.location.block, Some(ad.location.partition_ref))),
                ad => (ad.length, Descriptor::Extended(ad)),
            },
        })
    }

    /// The extent, as a read sees it; `None` for a continuation.
    pub(crate) fn extent(self) -> Option<AllocExtent> {
        let named = |length, extent_type, place: LbAddr| AllocExtent {
            length,
            extent_type,
            block: place.block,
            partition_ref: Some(place.partition_ref),
        };
        match self {
            Descriptor::Short(ad) => {
                Some(AllocExtent { length: ad.length, extent_type: ad.extent_type, block: ad.block_location, partition_ref: None })
            }
            Descriptor::Long(ad) => Some(named(ad.length, ad.extent_type, ad.location)),
            Descriptor::Extended(ad) => Some(named(ad.information_length, ad.extent_type, ad.location)),
            Descriptor::Continuation(_) => None,
        }
    }
}

/// A descriptor that is refused.
#[derive(Debug, Clone, Copy, PartialEq, Eq)]
pub(crate) enum Unread {
    /// Its recorded length differs from its information length.
    Compressed(ExtAd),
    /// It is invalid.
    Malformed,
}

impl Unread {
    fn refused(self) -> Refused {
        let why = if self == Unread::Malformed { Refusal::Malformed } else { Refusal::Unsupported };
        Refused { why, sectors: 0 }
    }
}

/// Iterates over the descriptors of an area (docs/RULES.md, part 6): a length of 0 ends it, a continuation is the last,
/// and a compressed extent is refused with 4.
pub(crate) struct Area<'a> {
    kind: AdType,
    rest: &'a [u8],
}

impl<'a> Area<'a> {
    pub(crate) fn new(kind: AdType, area: &'a [u8]) -> Area<'a> {
        Area { kind, rest: area }
    }
}

impl Iterator for Area<'_> {
    type Item = std::result::Result<Descriptor, Unread>;

    fn next(&mut self) -> Option<Self::Item> {
        let size = match self.kind {
            AdType::Short => ShortAd::SIZE,
            AdType::Long => LongAd::SIZE,
            AdType::Extended => ExtAd::SIZE,
            AdType::EmbeddedInIcb => return None,
        };
        let (front, behind) = self.rest.split_at_checked(size)?;
        self.rest = behind;
        let one = match Descriptor::parse(self.kind, front) {
            Ok((0, _)) => None,
            Ok((_, Descriptor::Extended(ad))) if ad.recorded_length != ad.information_length => Some(Err(Unread::Compressed(ad))),
            Ok((_, one)) => Some(Ok(one)),
            Err(_) => Some(Err(Unread::Malformed)),
        };
        if !matches!(one, Some(Ok(Descriptor::Short(_) | Descriptor::Long(_) | Descriptor::Extended(_)))) {
            self.rest = &[];
        }
        one
    }
}
