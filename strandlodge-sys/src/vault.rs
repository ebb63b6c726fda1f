//! include/vault.h: Reads UDF discs (ECMA-167, OSTA UDF) from memory, and writes disc images to memory, for C.
//!
//! Link target/staticlib/libvault_c.a, which `tools/archives proved` makes from the proved sources. To read straight
//! from a drive, link libdrives_c.a; for surveys, libsurveys_c.a. Both are made in the same way. Each call has the
//! contract of the call that it passes on, of crate vault, writers, drives, figures or surveys.
//!
//! Nothing here allocates, keeps or frees memory. The caller lends the image, the output and the work space for the
//! duration of the call, each as a pointer and a length. Lent pieces must not overlap. A piece of length 0 may have a
//! null pointer. A piece has at most PTRDIFF_MAX bytes: no object is larger. Every call writes to `component_at` and
//! `part_at`, so they must not be null. If the image changes during a call, the result may match no state of the image.
//! The call still ends, with a number of the table, and stays inside the memory that it was lent.
//!
//! Stack: a call takes at most these bytes on x86-64, with bodies unchecked and checked. tools/stack.py measures them,
//! on a tree of 16 levels where that matters. A call that the table doesn't name takes at most 512.
//!
//!     vault_open                   1,664    1,792
//!     vault_label                  1,664    1,664
//!     vault_lookup                 2,048    2,048
//!     vault_failed                 2,048    2,048
//!     vault_list                   1,536    1,536
//!     vault_show                   7,296    7,296
//!     vault_read                   1,408    1,408
//!     vault_part                     768      768
//!     vault_extents                1,152    1,152
//!     vault_runs                   1,664    1,664
//!     vault_read_path              2,048    2,048
//!     vault_read_all               2,176    2,176
//!     vault_write                  1,280    1,280
//!     vault_opening_step           1,664    1,664
//!     vault_reading_step           2,432    2,432
//!     vault_list_bytes               512      640
//!     vault_match                    768      768
//!     vault_measure                1,024    1,024
//!     vault_survey                13,184   13,184
//!
//! Every call on an image except vault_probe returns an answer, one of the numbers named below, and a count: how many
//! sectors of 2,048 bytes it asked for. A call with an answer other than 0 is refused. It returns zeros in every value
//! except the count, and leaves `out` and the slots unchanged. (One exception: on VAULT_NOT_BLURAY, vault_failed
//! returns the component.) A call that is done writes the front of `out` and nothing after it. Every call, refused or
//! not, leaves `work` all zero. It clears all of `work` for that, some 30 microseconds for each MiB: lend what the
//! largest directory needs, and not more.
//!
//! The time of each call is bounded, whatever the image holds: it is proportional to what the table gives. A file's
//! descriptors are in its entry and in a chain of at most 32 continuations of 1 MiB, together at most 16,385 sectors. A
//! directory that has more bytes than `work` is refused.
//!
//!     vault_open, vault_label     the main sequence, at most 2,097,151 sectors; once more for each map with VAULT_MAPS
//!     vault_probe                 8 sectors
//!     vault_lookup, vault_failed  for each component of the path: a directory's bytes, entry and chain
//!     vault_list                  the directory's bytes, entry and chain
//!     vault_read                  the bytes returned, and the file's entry and chain
//!     vault_measure, vault_part   the file's entry and chain; none of its bytes is read
//!     vault_extents, vault_runs   the same, and the slots written
//!     vault_read_path             the lookup and the read
//!     vault_read_all              the sum of its items
//!     vault_show                  most + 1 times the bytes of `work` and 2,048; one more directory's entry and chain
//!     vault_survey                for each image: the opening, the show, and one more file's entry and chain
//!     vault_opening_step          one sector
//!     vault_reading_step          one sector; when the chain or the read ends, also the slots of the row
//!     vault_list_bytes            the bytes lent; also vault_match and vault_next_component
//!     vault_write                 the image written, and the names
//!
//! With VAULT_UNLIMITED as `most`, only the number of paths bounds vault_show and vault_survey. A malicious disc may
//! have more paths than anyone could ever walk.
//!
//! You may pass any volume and any ICB, even one made by hand. Fields are not masked: a length of 2^30 counts as
//! non-zero.
//!
//! Made by tools/faces.py from the comments and declarations of crates/vault_c.
#![allow(missing_docs)]

/// Done.
pub const DONE: u64 = 0;
/// A sector that was asked for is not completely inside the image.
pub const IO: u64 = 1;
/// Too few bytes, or an invalid descriptor, tag, name or length.
pub const MALFORMED: u64 = 2;
/// No volume, or no such path.
pub const NOT_BLURAY: u64 = 3;
/// Not supported: another block size or partition, partition maps other than up to four of type 1, a compressed or
/// unrecorded extent, a continuation of more than 1,048,576 bytes; or an unknown bit in `how`.
pub const UNSUPPORTED: u64 = 4;
/// The result has more bytes than `out`.
pub const NO_ROOM: u64 = 5;
/// A directory has more bytes than `work`; in a show, more than `work` has left after the directories above it.
pub const NO_WORK: u64 = 6;
/// There are more extents or runs than slots.
pub const NO_SLOT: u64 = 7;
/// A component of the path matches two or more entries of its directory, and the choice of matching allows only one.
pub const AMBIGUOUS: u64 = 9;
/// A descriptor that is checked has a wrong CRC, or a CRC length that exceeds the available bytes.
pub const BAD_CRC: u64 = 10;
/// A directory is at the last level that was asked for, or the number of levels is 0 or more than 16.
pub const TOO_DEEP: u64 = 11;
/// There are more paths than places for their lengths or their answers.
pub const TOO_MANY: u64 = 12;
/// A name of an image to be written is invalid, or two names are equal with ASCII case ignored.
pub const BAD_NAME: u64 = 13;
/// The files of an image to be written: too many files, different numbers of names and lengths, a file that is too
/// long, or lengths that exceed the staging area.
pub const BAD_FILES: u64 = 14;
/// The lengths of a shelf's images exceed the bytes lent, or there are too few places for the figures of each image and
/// of the shelf.
pub const BAD_SHELF: u64 = 15;
/// The call would ask for more sectors than its budget allows (`most`).
pub const OVER_BUDGET: u64 = 16;

/// Ignores ASCII case and takes the first entry that matches.
pub const CASE_IGNORED: u32 = 0;
/// Matches byte for byte and takes the first entry that matches.
pub const AS_WRITTEN: u32 = 1;
/// Ignores ASCII case; a component that two or more entries match is refused with VAULT_AMBIGUOUS.
pub const UNAMBIGUOUS: u32 = 2;

/// A choice for `how`: check the CRC of each descriptor that is parsed, on opening and in every call on the volume. If
/// one is wrong, the call is refused with VAULT_BAD_CRC.
pub const CHECKED: u32 = 1;
/// A choice for `how`: a partition reference in a descriptor or an ICB is an index into the logical volume's partition
/// maps, up to four, all of type 1. Without it, references are compared with the partition's number, and those of ICBs
/// are ignored.
pub const MAPS: u32 = 2;
/// A choice for `how`: of several primary volume, partition or logical volume descriptors, the one with the highest
/// volume descriptor sequence number counts, the later of equals. Without it, the last one counts. Partition
/// descriptors are compared whatever their partition numbers; but with VAULT_MAPS only those of a map's own partition
/// number decide where its partition starts, with this choice or without.
pub const HIGHEST: u32 = 4;

/// For `most`: no limit. Use it for images that you trust.
pub const UNLIMITED: u64 = 18446744073709551615;
/// The number of bytes in a sector, and in a block.
pub const SECTOR_SIZE: usize = 2048;
/// Increases whenever a struct or a call changes.
pub const VERSION: u32 = 12;

/// The number of numbers in a place of a row of figures.
pub const FIGURES: usize = 80;

structs! {
    /// How a volume is read: where its partition starts, the partition's number, whether descriptors are checked, and
    /// the partition maps that resolve references, if any.
    vault_mount as Mount, 48 aligned to 4 {
        /// The sector where the partition starts; for a volume with maps, the file set's partition.
        0 start: u32,
        /// The partition's number.
        4 partition: u16,
        /// If not 0, the body of each descriptor that is parsed must have the CRC that its tag gives; otherwise the
        /// call is refused.
        8 checked: u32,
        /// The number of partition maps. 0: references are compared with `partition`. More than 4 counts as 4.
        12 maps: u32,
        /// For each map, the volume sequence number, the partition's number and the sector where it starts; zeros if
        /// there is none.
        16 volumes: [u16; 4],
        24 numbers: [u16; 4],
        32 starts: [u32; 4],
    }

    /// A block of a partition.
    vault_lb_addr as LbAddr, 8 aligned to 4 {
        /// Counted from the partition's start.
        0 block: u32,
        /// The partition.
        4 partition_ref: u16,
    }

    /// The place of something on the disc, such as the ICB of a file or a directory.
    vault_long_ad as LongAd, 24 aligned to 4 {
        /// In bytes; below 2^30 if it was read from a disc.
        0 length: u32,
        /// 0 to 3 if it was read from a disc; 0 is recorded.
        4 extent_type: u8,
        /// The first block.
        8 location: LbAddr,
        /// As recorded.
        16 implementation_use: [u8; 6],
    }

    /// An opened volume. It holds no pointers: you can copy it, keep it, or make one by hand.
    vault_volume as Volume, 104 aligned to 4 {
        /// How it is read.
        0 mount: Mount,
        /// The root directory.
        48 root: LongAd,
        /// The label field as recorded.
        72 label: [u8; 32],
    }

    /// The answer, the count of sectors, and the volume.
    vault_opened as Opened, 120 aligned to 8 {
        /// A number of the table.
        0 answer: u64,
        /// The sectors asked for.
        8 count: u64,
        /// Zeros if opening was refused.
        16 volume: Volume,
    }

    /// The answer, the count of sectors, and a length.
    vault_reply as Reply, 24 aligned to 8 {
        /// A number of the table.
        0 answer: u64,
        /// The sectors asked for.
        8 count: u64,
        /// The number of bytes or slots of the result. 0 if the call was refused, except for the component that failed.
        16 length: u64,
    }

    /// The answer, the count of sectors, and the ICB that a path names.
    vault_found as Found, 40 aligned to 8 {
        /// A number of the table.
        0 answer: u64,
        /// The sectors asked for.
        8 count: u64,
        /// Zeros if the lookup was refused.
        16 icb: LongAd,
    }

    /// An extent, as a slot of the extent list gives it.
    vault_extent as Extent, 16 aligned to 4 {
        /// The effective length: how many bytes of its file are in the extent.
        0 length: u32,
        /// 0: recorded.
        4 extent_type: u32,
        /// Counted from the partition's start.
        8 block: u32,
        /// 65,536 if the descriptor names none.
        12 partition: u32,
    }

    /// A run, as a slot gives it: a number of bytes of the image, from a place on.
    vault_run as Run, 16 aligned to 8 {
        /// The offset of its first byte in the image.
        0 at: u64,
        /// The number of bytes, at least 1.
        8 length: u64,
    }

    /// The answer, and how many sectors the image has; 0 if the call was refused.
    vault_write_reply as WriteReply, 16 aligned to 8 {
        0 answer: u64,
        8 sectors: u64,
    }

    /// What is kept of the three descriptors between sectors, each with its volume descriptor sequence number.
    vault_kept as Kept, 124 aligned to 4 {
        0 has_primary: bool,
        4 primary_sequence: u32,
        8 label: [u8; 32],
        40 has_partition: bool,
        44 partition_sequence: u32,
        48 partition_number: u16,
        52 partition_start: u32,
        56 has_logical: bool,
        60 logical_sequence: u32,
        64 block_size: u32,
        68 file_set: LongAd,
        /// The front of the map table as recorded, its length in bytes, and its number of maps.
        92 map_table_length: u32,
        96 map_count: u32,
        100 maps: [u8; 24],
    }

    /// An opening in progress.
    vault_opening as Opening, 264 aligned to 8 {
        /// What is wanted: 0, the anchor; 1, a sector of the sequence; 2, the file set descriptor. To find out whether
        /// the opening has ended, call is_wanting; don't look at the phase: a state made by hand may have ended in any
        /// phase.
        0 phase: u8,
        /// The sector wanted.
        8 at: u64,
        /// The number of sectors of the sequence after it.
        16 left: u32,
        /// What was kept of the descriptors so far.
        20 kept: Kept,
        /// The answer, how many sectors were wanted and have come or could not be read, and the volume. All zero,
        /// except the count, until the opening has ended.
        144 opened: Opened,
    }

    /// A place in an area.
    vault_scan as Scan, 56 aligned to 8 {
        /// The number of places of the row that hold extents.
        0 listed: usize,
        /// An extent of this area found no free place.
        8 full: bool,
        /// 0: the area continues; 1: it has ended; 2: it has ended with a continuation; any other: it is refused with
        /// 4.
        9 closed: u8,
        /// The bytes of the descriptor that has begun to arrive, and their number.
        16 carried: usize,
        24 carry: [u8; 20],
        /// The continuation.
        44 next_length: u32,
        48 next_block: u32,
        52 next_reference: u32,
    }

    /// A continuation that arrives in parts: what its header said, and what is still to come of its body and its area.
    vault_body as Body, 16 aligned to 4 {
        /// The tag is valid.
        0 tagged: bool,
        /// The tag is that of a header, and the area that the header gives fits the continuation.
        1 headed: bool,
        /// The tag's CRC, the CRC of the body so far, and how many bytes of the body are still to come.
        2 crc: u16,
        4 summed: u16,
        8 body_left: u32,
        /// How many bytes of the area are still to come.
        12 area_left: u32,
    }

    /// A read in progress.
    vault_reading as Reading, 192 aligned to 8 {
        /// What is wanted: 0, the file entry; 1, the first sector of a continuation; 2, a further one; 3, a sector of
        /// an extent. To find out whether the read has ended, call is_wanting; don't look at the phase: a state made by
        /// hand may have ended in any phase.
        0 phase: u8,
        /// The sector wanted, and how many after it belong to the same continuation or extent.
        8 at: u64,
        16 left: u32,
        /// How the entry's descriptors are read, their kind, and how many continuations may follow.
        20 mount: Mount,
        68 kind: u8,
        69 hops: u8,
        /// How many bytes of the information length are still missing.
        72 missing: u64,
        /// The bytes of the continuation, or those of the extent from the wanted sector on.
        80 size: u32,
        /// The place in the row of the extent after the one being read.
        88 next: usize,
        96 scan: Scan,
        152 body: Body,
        /// The answer, 0 until the read has ended; how many sectors were wanted and have come or could not be read; how
        /// many bytes have arrived in the output.
        168 answer: u64,
        176 count: u64,
        184 length: usize,
    }

    /// The ICB of an entry, and whether it is a directory. Zeros if no entry has the name, or if the directory is
    /// refused.
    vault_named as Named, 40 aligned to 8 {
        /// A number of the table; 0 also if no entry has the name.
        0 answer: u64,
        /// Whether an entry has the name.
        8 found: bool,
        12 icb: LongAd,
        /// Whether the entry is a directory.
        36 directory: bool,
    }

    /// The place of a component in a path.
    vault_component as Component, 16 aligned to 8 {
        /// Its offset in the path.
        0 at: usize,
        /// Its length; 0 if there is none.
        8 length: usize,
    }

    /// A figure.
    vault_figure as Figure, 16 aligned to 8 {
        /// At most 2^64 - 1.
        0 number: u64,
        /// 1 if the figure exceeds 2^64 - 1, otherwise 0.
        8 over: u64,
    }

    /// The figures of an image or of a shelf. Files and directories are those that vault_show lists at 16 levels, each
    /// counted once for each path. The root is not counted.
    vault_figures as Figures, 640 aligned to 8 {
        /// Files found, including those that can't be read.
        0 files: Figure,
        16 directories: Figure,
        /// The sum of what vault_measure gives for each file.
        32 bytes: Figure,
        /// The extents that vault_extents lists for the files that can be read.
        48 extents: Figure,
        /// The counts of reading each file, including files that are refused. Not included are the sectors of opening,
        /// of the tree and of the extent lists.
        64 sectors: Figure,
        /// How many files have each answer. None has VAULT_OVER_BUDGET.
        80 files_by_answer: [Figure; 17],
        /// How many images have each answer, of their opening or their tree; or VAULT_OVER_BUDGET, if these and the
        /// reads of the files together need more sectors than `most`. An image with an answer other than 0 has no other
        /// figure.
        352 images_by_answer: [Figure; 17],
        /// The largest number of continuations of allocation descriptors that were followed for a file that can be
        /// read.
        624 chain: Figure,
    }
}

unsafe extern "C" {
    /// The VAULT_VERSION of the archive. It must equal that of the header.
    pub fn vault_version() -> u32;

    /// Whether the image has a volume recognition sequence. Opening does not depend on it.
    pub fn vault_probe(image: *const u8, image_length: usize) -> bool;

    /// Opens the volume of an image. `how` is the sum of the choices, or 0 for none; any other bit is VAULT_UNSUPPORTED
    /// with a count of 0. VAULT_CHECKED and VAULT_MAPS are kept in the volume's mount and apply to every call on the
    /// volume. VAULT_HIGHEST leaves no trace in it.
    pub fn vault_open(image: *const u8, image_length: usize, how: u32) -> Opened;

    /// Opens an image, as vault_open does, and writes its label to `out` as UTF-8, with no terminating zero. `length`
    /// is the length of the label.
    pub fn vault_label(image: *const u8, image_length: usize, how: u32, out: *mut u8, out_length: usize) -> Reply;

    /// Finds the ICB that a path names. Slashes separate the components; empty components are dropped, and the empty
    /// path names the root. `matching` says how a component is matched with the names of a directory's entries, except
    /// deleted entries and the parent: VAULT_CASE_IGNORED, VAULT_AS_WRITTEN or VAULT_UNAMBIGUOUS. Any other number
    /// counts as VAULT_UNAMBIGUOUS. A component that does not exist, or is below a file, is VAULT_NOT_BLURAY.
    pub fn vault_lookup(
        volume: Volume,
        image: *const u8,
        image_length: usize,
        path: *const u8,
        path_length: usize,
        matching: u32,
        work: *mut u8,
        work_length: usize,
    ) -> Found;

    /// Finds the component at which that lookup is refused with VAULT_NOT_BLURAY. `length` is the length of the
    /// component, and its offset in the path goes to `*component_at`. Both are 0 if no component was refused in this
    /// way, for example on VAULT_AMBIGUOUS. The answer and the count are those of the lookup.
    pub fn vault_failed(
        volume: Volume,
        image: *const u8,
        image_length: usize,
        path: *const u8,
        path_length: usize,
        matching: u32,
        work: *mut u8,
        work_length: usize,
        component_at: *mut usize,
    ) -> Reply;

    /// Lists a directory: one record for each entry except deleted entries and the parent, one after another. A record
    /// is:
    ///
    ///     44 45   1 for a directory, else 0   the ICB's 16 bytes as recorded
    ///     the name's length (2 bytes, little-endian)   the name, as UTF-8
    pub fn vault_list(
        volume: Volume,
        image: *const u8,
        image_length: usize,
        icb: LongAd,
        out: *mut u8,
        out_length: usize,
        work: *mut u8,
        work_length: usize,
    ) -> Reply;

    /// Lists the volume's whole tree from its root, down to `levels` levels, 1 to 16: one record for each entry that a
    /// path of at most that many components leads to. An entry comes before what is below it, and the entries of a
    /// directory come in the order of the disc. A record is that of vault_list with the level after the mark; the level
    /// is 1 for the root's entries:
    ///
    ///     44 45   the level   1 for a directory, else 0   the ICB's 16 bytes as recorded
    ///     the name's length (2 bytes, little-endian)   the name, as UTF-8
    ///
    /// A directory at the last level, even an empty one, is VAULT_TOO_DEEP when its turn comes, before it is read. Any
    /// other number of levels is VAULT_TOO_DEEP at once. `work` holds the directories on the way down together, one
    /// after another: VAULT_NO_WORK counts those above. A directory that contains itself reaches the last level and is
    /// VAULT_TOO_DEEP, unless it is VAULT_NO_WORK before that.
    ///
    /// A directory is read and shown once for each path to it, and a few directories may have more paths than anyone
    /// could ever walk. So `most` is the number of sectors that the call may ask for. Instead of asking for one more,
    /// it is refused with VAULT_OVER_BUDGET, and the count is then `most`; refusals that it meets earlier are
    /// unchanged. A call that stays within `most` gives the same result as with VAULT_UNLIMITED. On a sound disc each
    /// sector of a directory is asked for once, so the number of sectors of the image is enough.
    pub fn vault_show(
        volume: Volume,
        image: *const u8,
        image_length: usize,
        levels: u32,
        most: u64,
        out: *mut u8,
        out_length: usize,
        work: *mut u8,
        work_length: usize,
    ) -> Reply;

    /// Reads a file, or the bytes of a directory itself, to `out`.
    pub fn vault_read(volume: Volume, image: *const u8, image_length: usize, icb: LongAd, out: *mut u8, out_length: usize) -> Reply;

    /// Returns in `length` how many bytes vault_read gives for that file if there is room. The answer and the count are
    /// those of the read. Nothing is written.
    pub fn vault_measure(volume: Volume, image: *const u8, image_length: usize, icb: LongAd) -> Reply;

    /// Finds the bytes of an embedded file in the image: `length` bytes from `*part_at` on. For any other file that can
    /// be read, the answer is VAULT_DONE and both are 0; they are also 0 if the call is refused. An embedded file of no
    /// bytes still has a place.
    pub fn vault_part(volume: Volume, image: *const u8, image_length: usize, icb: LongAd, part_at: *mut usize) -> Reply;

    /// Lists the extents of a file in reading order, one per slot of `row`; `length` is their number. An embedded file
    /// has none. An extent's partition is the reference as recorded. Its first sector is its block plus the start of
    /// its partition. Without maps in the mount, that start is `start`. With maps, it is the entry of `starts` for the
    /// reference; for 65,536 (none), the one for the ICB's reference.
    pub fn vault_extents(volume: Volume, image: *const u8, image_length: usize, icb: LongAd, row: *mut Extent, row_slots: usize) -> Reply;

    /// Lists the runs of a file: the offset and length of each run of the image that vault_read takes the file's bytes
    /// from, in reading order, one per slot of `row`; `length` is their number. Runs are cut as the read is cut. Each
    /// has at least one byte and is inside the image, and joined they are what vault_read gives. An empty file has
    /// none. Two runs may follow each other in the image, overlap or be equal. The answer and the count are those of
    /// the read, except that more runs than slots are VAULT_NO_SLOT, which comes last and takes the place of
    /// VAULT_NO_ROOM.
    pub fn vault_runs(volume: Volume, image: *const u8, image_length: usize, icb: LongAd, row: *mut Run, row_slots: usize) -> Reply;

    /// Looks a path up and reads what it names to `out`. The count covers both.
    pub fn vault_read_path(
        volume: Volume,
        image: *const u8,
        image_length: usize,
        path: *const u8,
        path_length: usize,
        matching: u32,
        out: *mut u8,
        out_length: usize,
        work: *mut u8,
        work_length: usize,
    ) -> Reply;

    /// Reads many files to `out`, one after another. `paths` holds their paths, separated by zero bytes: n zeros make n
    /// + 1 paths, so no bytes are one path. An empty path reads the bytes of the root. For each path in turn, `lengths`
    /// and `answers` get its number of bytes and its answer, as vault_read_path gives them for the room that is left. A
    /// path that is refused has length 0 and takes no room, and the rest go on. So the answer is VAULT_DONE even if
    /// every path was refused; the count is the sum of all, and `length` the bytes of all. If there are more paths than
    /// places in either row, the answer is VAULT_TOO_MANY: no sector is asked for, and nothing is written except the
    /// zeros of `work`.
    pub fn vault_read_all(
        volume: Volume,
        image: *const u8,
        image_length: usize,
        paths: *const u8,
        paths_length: usize,
        matching: u32,
        out: *mut u8,
        out_length: usize,
        lengths: *mut u64,
        lengths_places: usize,
        answers: *mut u32,
        answers_places: usize,
        work: *mut u8,
        work_length: usize,
    ) -> Reply;

    /// Returns how many sectors of 2,048 bytes the image of these files has. `names` holds their names, each terminated
    /// by a zero byte, and `lengths` the number of bytes of each. A name has 1 to 127 bytes from 21 to 7E, without 2F.
    /// Any other name, a rest without its zero byte, and two names that are equal with ASCII case ignored are
    /// VAULT_BAD_NAME. More than 64 files, different numbers of names and lengths, and a file of more than
    /// 1,073,739,776 bytes are VAULT_BAD_FILES.
    pub fn vault_write_total(names: *const u8, names_length: usize, lengths: *const u64, lengths_places: usize) -> WriteReply;

    /// Writes that image to the front of `image` and leaves the rest unchanged. The answer has its sectors. The files
    /// are in `staging` one after another, from its front, in the order of their names. The refusals are those of
    /// vault_write_total; then VAULT_BAD_FILES if the lengths exceed `staging`; then VAULT_NO_ROOM if the image has
    /// more sectors than `image` has whole ones.
    pub fn vault_write(
        names: *const u8,
        names_length: usize,
        lengths: *const u64,
        lengths_places: usize,
        staging: *const u8,
        staging_length: usize,
        image: *mut u8,
        image_length: usize,
    ) -> WriteReply;

    /// Starts an opening, as vault_open with a `how` of 0. When it has ended, `opened` is the result.
    pub fn vault_opening_start() -> Opening;

    /// Whether a sector is wanted. If not, the opening has ended.
    pub fn vault_opening_is_wanting(opening: Opening) -> bool;

    /// The sector wanted, counted from the start of the disc; 0 if the opening has ended.
    pub fn vault_opening_wants(opening: Opening) -> u64;

    /// Takes the sector wanted and returns the next state.
    pub fn vault_opening_step(opening: Opening, sector: *const u8, sector_length: usize) -> Opening;

    /// Starts a read of a file or of the bytes of a directory itself, as vault_read. It ends at once if the ICB has no
    /// length or no place.
    ///
    /// The file's extents wait in `row`, one per slot. The row is zeroed here: lend every step the same row, unchanged.
    /// It may grow between steps, and so may the output. An extent that finds no free slot ends the read with
    /// VAULT_NO_SLOT, once its entry or continuation has arrived completely and is valid.
    pub fn vault_reading_start(volume: Volume, icb: LongAd, row: *mut Extent, row_slots: usize) -> Reading;

    /// Whether a sector is wanted. If not, the read has ended.
    pub fn vault_reading_is_wanting(reading: Reading) -> bool;

    /// The sector wanted, counted from the start of the disc; 0 if the read has ended.
    pub fn vault_reading_wants(reading: Reading) -> u64;

    /// Takes the sector wanted and returns the next state. The bytes of the file in this sector go to `out` after the
    /// `length` bytes that have arrived, as many as fit; a byte that does not fit ends the read with VAULT_NO_ROOM.
    /// Nothing after them is written, and what has arrived stays even after a refusal. The whole row is zeroed when the
    /// read ends, whatever the answer.
    pub fn vault_reading_step(
        reading: Reading,
        sector: *const u8,
        sector_length: usize,
        row: *mut Extent,
        row_slots: usize,
        out: *mut u8,
        out_length: usize,
    ) -> Reading;

    /// Lists a directory whose bytes you have, as vault_list does; the count is 0. Of `volume`, only whether
    /// descriptors are checked is used.
    pub fn vault_list_bytes(volume: Volume, bytes: *const u8, bytes_length: usize, out: *mut u8, out_length: usize) -> Reply;

    /// Finds the entry that a component of a path names in a directory whose bytes you have, as vault_lookup matches
    /// it. If no entry has the name, the answer is VAULT_DONE and `found` is false. Two or more entries under
    /// VAULT_UNAMBIGUOUS are VAULT_AMBIGUOUS. One bad entry refuses the directory. The empty component is the name of
    /// an entry without a name.
    pub fn vault_match(
        volume: Volume,
        bytes: *const u8,
        bytes_length: usize,
        component: *const u8,
        component_length: usize,
        matching: u32,
    ) -> Named;

    /// Finds the first component of a path from `at` on; its length is 0 if there is none. Start at 0 and continue from
    /// the end of each component: they come in the order in which vault_lookup takes them.
    pub fn vault_next_component(path: *const u8, path_length: usize, at: usize) -> Component;

    /// Computes the figures of images that are in `shelf` one after another, from its front, each as long as `lengths`
    /// says: one place for each in turn, and after them one for all. `how` is as in vault_open, and `work` as in
    /// vault_show. The answer is VAULT_DONE even if every image is refused. It is VAULT_BAD_SHELF if the lengths exceed
    /// `shelf`, or if there are fewer places than the number of images plus one; then nothing is written except the
    /// zeros of `work`. Further places are unchanged.
    ///
    /// Each image has its own budget of `most` sectors. Its opening, its tree and the reads of its files, in their
    /// order, each have what those before have left, by their counts. An image that needs more counts under
    /// VAULT_OVER_BUDGET, and the next one follows. Extents and chains are looked up besides the reads, and that is not
    /// counted. On a sound disc each sector is asked for once, and the sectors of a file once for each path to it.
    /// VAULT_UNLIMITED is no budget.
    pub fn vault_survey(
        shelf: *const u8,
        shelf_length: usize,
        lengths: *const u64,
        lengths_places: usize,
        how: u32,
        most: u64,
        figures: *mut u64,
        figures_places: usize,
        work: *mut u8,
        work_length: usize,
    ) -> u64;

    /// Writes the total of the first `images` places of a row to the place after them. Use it for images that are not
    /// in one slice and were surveyed one by one. The answer is VAULT_DONE; or VAULT_BAD_SHELF if there are too few
    /// places, and then nothing is written.
    pub fn vault_survey_total(figures: *mut u64, figures_places: usize, images: usize) -> u64;
}
