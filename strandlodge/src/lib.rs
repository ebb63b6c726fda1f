//! Reads UDF discs from memory, and writes disc images to memory, through the proved archives of include/vault.h.
//!
//! [`Disc`] is an opened disc over an image that it owns or borrows. It has the calls of the original's `UdfDisc`,
//! under the same names; README.md shows them side by side. [`Drive`] has the same calls over a reader. Both return
//! plain values. To get the number of sectors that each call asked for too, use [`Disc::counted`] and
//! [`Drive::counted`]. A refusal always has that number.
//!
//! ```
//! # fn show() -> Vec<u8> { Vec::new() }
//! let image = show(); // the bytes of a disc
//! match strandlodge::Disc::open(&image) {
//!     Ok(disc) => println!("{} sectors asked for", disc.sectors()),
//!     Err(refused) => println!("refusal {}: {refused}", refused.number()),
//! }
//! ```
//!
//! # Names that differ only in case
//!
//! A disc may hold both cue 10.1A and cue 10.1a. [`Disc::lookup`] ignores ASCII case and takes the first entry that
//! matches, as the original does, so it gives the same entry for both names. [`Disc::lookup_as`],
//! [`Disc::read_path_as`], [`Disc::read_all_as`] and [`Disc::failed_as`] take a [`Matching`]: the exact name, or a
//! refusal if more than one entry matches.
//!
//! # Scratched discs
//!
//! A scratch may ruin a descriptor's body and leave its tag intact: then the size, the place or the name is wrong. Each
//! tag holds a CRC of the body after it. Neither the original nor [`Disc::open`] looks at it. [`Disc::open_as`] with
//! [`How::checked`](How) checks it for each descriptor that is parsed, in this call and in every later one on the
//! volume, and refuses with 10 if it is wrong. The bytes of a file have no CRC.
//!
//! # Why a call was refused
//!
//! A refusal is a number and a count: [`Refused`]. The calls of [`Disc`] and [`Drive`] return an [`Error`], which adds
//! and prints the cause if it is known. An [`io::Error`](std::io::Error) converts to it too. For more, use
//! [`Disc::diagnose`] or [`Drive::diagnose`]; for an opening, [`diagnose()`] or [`Unopened::diagnose`]. They repeat the
//! refused call and name the last sector that it asked for, what it was for and what is there ([`Place`]), and the
//! [`Cause`]: another block size, an unsupported partition map, an extent that is not recorded.
//!
//! # Several partitions
//!
//! In ECMA-167 a partition reference is an index into the logical volume's partition maps. The original compares it
//! with the partition's number instead, and so does [`Disc::open`]. It therefore refuses, with 4, every reference that
//! is not the partition's number, as on a disc whose only partition has a number other than 0, or on one with two
//! partitions. With [`How::maps`](How), references go through the maps; [`Disc::maps`] lists them, and
//! [`Disc::extent_sector`] says where the bytes of an extent are. [`map_table`] shows the maps of any disc, including
//! unsupported ones.
//!
//! # Many cues
//!
//! [`Disc::read_all`] reads a list of paths, with one call of the archive for each 1,024 of them. For each path you get
//! its bytes or the reason why there are none; a missing cue does not affect the others.
//!
//! # Large files
//!
//! [`Disc::runs`] gives a file as parts of the image, in reading order, without copying: you can write a film straight
//! from a map, or look into it, with 16 bytes of memory for each of its extents. [`Runs::range`] cuts them to a part of
//! the file, and [`Runs::places`] says where they are.
//!
//! # A whole show
//!
//! [`Disc::show`] lists everything on a volume, down to a number of levels, with one call of the archive. [`Show`]
//! yields the entries in turn, each with its level and its path. A directory is shown once for each path to it, and one
//! that contains itself is refused with 11.
//!
//! A malicious disc may have more paths than can be counted. So the call takes a budget of sectors, `most`, and is
//! refused with 16 instead of asking for more; [`UNLIMITED`] is no budget. For a sound disc, the tree asks for each
//! sector of its directories once.
//!
//! # A shelf of images
//!
//! [`survey()`] counts what is on each of many images, and on all of them: files, directories, bytes, extents, the
//! sectors that reading them takes, the longest chain, and refusals by number. To survey images one at a time, use
//! [`survey_image`] and [`survey_total`]; for images in one slice, [`survey_shelf`]. Each image has its own budget of
//! `most` sectors, for its opening, its tree and the reads of its files together.
//!
//! # Straight from a drive
//!
//! A disc doesn't always fit in memory. [`Drive`] takes a reader, as the original does, and asks it for one sector
//! after another: the sectors that the call needs, each once, in order. Answers, counts and refusals are those of
//! [`Disc`] on the same disc, opened without choices.
//!
//! # An image that is still being copied
//!
//! You can start reading before a disc is completely copied. While an image grows at its end, every answer stays valid,
//! and so does every refusal except 1. On refusal 1 ([`Refused::may_pass`]), retry with a slice of what is there when
//! the image has grown; [`Disc::missing_sector`] names the sector that a refused read waits for. Every other result is
//! final. This is proved for bytes that are added after the last one, that is, for a copy from front to back. It does
//! not hold for a copy that first creates the file at its full length: that leaves zeros where nothing was copied yet,
//! and they are read as they are.
//!
//! # Writing an image
//!
//! [`write()`] makes a complete image of up to 64 files. It is proved that [`Disc::open`] opens it and that each name
//! gives its file's bytes. [`write_staged`] writes it to memory that you lend, and [`write_total`] says how many
//! sectors it has.
//!
//! # The image must not change
//!
//! A `&[u8]` promises that nobody writes to its bytes while it is borrowed. Your own memory keeps that promise by
//! itself. A map of a file keeps it only if nobody writes to the file, and no map can enforce that. Whoever makes a map
//! takes on that duty and passes it on with the slice; this is why [`Mapped::open`] is `unsafe`. If the image changes
//! all the same, an answer may match no state of the image, old or new, and contain bytes that were never written. And
//! [`Disc::part`] and [`Disc::runs`] return bytes of the image itself, which keep changing while you look at them.
//!
//! If you can't keep that promise, because the image is written to in the middle or the drive may read a sector twice,
//! read the image into memory first, for example with `std::fs::read`; or use [`Drive`], which looks at each sector
//! once. A file that only grows at its end is fine: map the bytes that it has so far.
//!
//! # Records
//!
//! [`udf`] has the original's records, such as `FileEntry` and `DescriptorTag`, on top of the calls of
//! include/records.h.
//!
//! # Memory
//!
//! The proved calls allocate nothing: they write to memory that is lent to them, and refuse with 5, 6 or 7 if it is too
//! little. This crate measures a file or a directory and lends what it needs, or lends a little, and more if that was
//! the only problem. So you see these numbers only if memory runs out, or if the result is longer than any sound disc
//! can give: a file longer than its image (and longer than 256 MiB); a directory of more than 256 MiB, in a show
//! together with those above it; or a show of more than 256 MiB of records. Such a disc is refused, and no memory is
//! allocated just because a disc claims to need it. [`Disc::runs`] copies nothing and refuses no file for its length,
//! even one that doesn't fit in memory.

#[cfg(not(all(target_arch = "x86_64", target_os = "linux")))]
compile_error!("the archive is x86-64 code for Linux");

mod answer;
mod calls;
mod cause;
mod counted;
mod counted_drive;
mod diagnosis;
mod disc;
mod drive;
mod entries;
mod error;
mod how;
mod mapped;
mod maps;
mod matching;
mod opening;
mod parsing;
mod paths;
mod records;
mod room;
mod runs;
mod sequence;
mod source;
mod stack;
mod survey;
mod table;
mod tree;
pub mod udf;
mod writer;

#[cfg(test)]
mod replays;
#[cfg(test)]
#[path = "../tests/common/asked.rs"]
mod stored;

pub use answer::{Answer, Answered, Refusal, Refused};
pub use cause::Cause;
pub use counted::{Counted, SECTOR_SIZE};
pub use counted_drive::{CountedDrive, Uncopied, Unopened};
pub use diagnosis::{Asked, Diagnosis, Place, Sought, Standing, diagnose};
pub use disc::{Disc, probe_vrs, read_volume_label, read_volume_label_as};
pub use drive::Drive;
pub use error::{Error, Result};
pub use how::How;
pub use mapped::Mapped;
pub use maps::PartitionMap;
pub use matching::Matching;
pub use paths::PathText;
pub use records::{AllocExtent, DirEntry, LbAddr, LongAd, ShowEntry};
pub use runs::{Run, Runs};
pub use sequence::{Kind, VolumeDescriptor, volume_descriptors};
pub use source::Missed;
pub use stack::Item;
pub use strandlodge_sys::vault::UNLIMITED;
pub use survey::{Figure, Figures, Survey, survey, survey_image, survey_shelf, survey_total};
pub use table::{MapForm, MapTable, map_table};
pub use tree::Show;
pub use udf::AVDP_SECTOR;
pub use writer::{write, write_staged, write_total};

/// The old name of [`Disc`].
#[deprecated(note = "renamed to Disc")]
pub type Vault<B> = Disc<B>;

/// Compiles the code in README.md with the tests.
#[cfg(doctest)]
#[doc = include_str!("../README.md")]
struct Readme;
