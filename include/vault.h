/* vault.h: Reads UDF discs (ECMA-167, OSTA UDF) from memory, and writes disc images to memory, for C.
 *
 * Link target/staticlib/libvault_c.a, which `tools/archives proved` makes from the proved sources. To read straight
 * from a drive, link libdrives_c.a; for surveys, libsurveys_c.a. Both are made in the same way. Each call has the
 * contract of the call that it passes on, of crate vault, writers, drives, figures or surveys.
 *
 * Nothing here allocates, keeps or frees memory. The caller lends the image, the output and the work space for the
 * duration of the call, each as a pointer and a length. Lent pieces must not overlap. A piece of length 0 may have a
 * null pointer. A piece has at most PTRDIFF_MAX bytes: no object is larger. Every call writes to `component_at` and
 * `part_at`, so they must not be null. If the image changes during a call, the result may match no state of the
 * image. The call still ends, with a number of the table, and stays inside the memory that it was lent.
 *
 * Stack: a call takes at most these bytes on x86-64, with bodies unchecked and checked. tools/stack.py measures
 * them, on a tree of 16 levels where that matters. A call that the table doesn't name takes at most 512.
 *
 *     vault_open                   1,664    1,792
 *     vault_label                  1,664    1,664
 *     vault_lookup                 2,048    2,048
 *     vault_failed                 2,048    2,048
 *     vault_list                   1,536    1,536
 *     vault_show                   7,296    7,296
 *     vault_read                   1,408    1,408
 *     vault_part                     768      768
 *     vault_extents                1,152    1,152
 *     vault_runs                   1,664    1,664
 *     vault_read_path              2,048    2,048
 *     vault_read_all               2,176    2,176
 *     vault_write                  1,280    1,280
 *     vault_opening_step           1,664    1,664
 *     vault_reading_step           2,432    2,432
 *     vault_list_bytes               512      640
 *     vault_match                    768      768
 *     vault_measure                1,024    1,024
 *     vault_survey                13,184   13,184
 *
 * Every call on an image except vault_probe returns an answer, one of the numbers named below, and a count: how many
 * sectors of 2,048 bytes it asked for. A call with an answer other than 0 is refused. It returns zeros in every
 * value except the count, and leaves `out` and the slots unchanged. (One exception: on VAULT_NOT_BLURAY,
 * vault_failed returns the component.) A call that is done writes the front of `out` and nothing after it. Every
 * call, refused or not, leaves `work` all zero. It clears all of `work` for that, some 30 microseconds for each MiB:
 * lend what the largest directory needs, and not more.
 *
 * The time of each call is bounded, whatever the image holds: it is proportional to what the table gives. A file's
 * descriptors are in its entry and in a chain of at most 32 continuations of 1 MiB, together at most 16,385 sectors.
 * A directory that has more bytes than `work` is refused.
 *
 *     vault_open, vault_label     the main sequence, at most 2,097,151 sectors; once more for each map with VAULT_MAPS
 *     vault_probe                 8 sectors
 *     vault_lookup, vault_failed  for each component of the path: a directory's bytes, entry and chain
 *     vault_list                  the directory's bytes, entry and chain
 *     vault_read                  the bytes returned, and the file's entry and chain
 *     vault_measure, vault_part   the file's entry and chain; none of its bytes is read
 *     vault_extents, vault_runs   the same, and the slots written
 *     vault_read_path             the lookup and the read
 *     vault_read_all              the sum of its items
 *     vault_show                  most + 1 times the bytes of `work` and 2,048; one more directory's entry and chain
 *     vault_survey                for each image: the opening, the show, and one more file's entry and chain
 *     vault_opening_step          one sector
 *     vault_reading_step          one sector; when the chain or the read ends, also the slots of the row
 *     vault_list_bytes            the bytes lent; also vault_match and vault_next_component
 *     vault_write                 the image written, and the names
 *
 * With VAULT_UNLIMITED as `most`, only the number of paths bounds vault_show and vault_survey. A malicious disc may
 * have more paths than anyone could ever walk.
 *
 * You may pass any volume and any ICB, even one made by hand. Fields are not masked: a length of 2^30 counts as
 * non-zero.
 *
 * Made by tools/faces.py from the comments and declarations of crates/vault_c. */
#ifndef VAULT_H
#define VAULT_H

#include <stdbool.h>
#include <stddef.h>
#include <stdint.h>

#ifdef __cplusplus
extern "C" {
#endif

/* The answer of a call: done, or why it is refused. */
typedef enum vault_answer {
    VAULT_DONE = 0, /* Done. */
    VAULT_IO = 1, /* A sector that was asked for is not completely inside the image. */
    VAULT_MALFORMED = 2, /* Too few bytes, or an invalid descriptor, tag, name or length. */
    VAULT_NOT_BLURAY = 3, /* No volume, or no such path. */
    /* Not supported: another block size or partition, partition maps other than up to four of type 1, a compressed
     * or unrecorded extent, a continuation of more than 1,048,576 bytes; or an unknown bit in `how`. */
    VAULT_UNSUPPORTED = 4,
    VAULT_NO_ROOM = 5, /* The result has more bytes than `out`. */
    /* A directory has more bytes than `work`; in a show, more than `work` has left after the directories above it. */
    VAULT_NO_WORK = 6,
    VAULT_NO_SLOT = 7, /* There are more extents or runs than slots. */
    /* A component of the path matches two or more entries of its directory, and the choice of matching allows only
     * one. */
    VAULT_AMBIGUOUS = 9,
    /* A descriptor that is checked has a wrong CRC, or a CRC length that exceeds the available bytes. */
    VAULT_BAD_CRC = 10,
    /* A directory is at the last level that was asked for, or the number of levels is 0 or more than 16. */
    VAULT_TOO_DEEP = 11,
    VAULT_TOO_MANY = 12, /* There are more paths than places for their lengths or their answers. */
    /* A name of an image to be written is invalid, or two names are equal with ASCII case ignored. */
    VAULT_BAD_NAME = 13,
    /* The files of an image to be written: too many files, different numbers of names and lengths, a file that is
     * too long, or lengths that exceed the staging area. */
    VAULT_BAD_FILES = 14,
    /* The lengths of a shelf's images exceed the bytes lent, or there are too few places for the figures of each
     * image and of the shelf. */
    VAULT_BAD_SHELF = 15,
    VAULT_OVER_BUDGET = 16, /* The call would ask for more sectors than its budget allows (`most`). */
} vault_answer;

/* How a component of a path is matched with the names of a directory's entries. */
#ifdef __cplusplus
typedef enum vault_matching : uint32_t {
#else
typedef enum vault_matching {
#endif
    VAULT_CASE_IGNORED = 0, /* Ignores ASCII case and takes the first entry that matches. */
    VAULT_AS_WRITTEN = 1, /* Matches byte for byte and takes the first entry that matches. */
    /* Ignores ASCII case; a component that two or more entries match is refused with VAULT_AMBIGUOUS. */
    VAULT_UNAMBIGUOUS = 2,
} vault_matching;

/* The choices on opening, one bit each. A `how` is the sum of the choices that you make. */
typedef enum vault_how {
    /* A choice for `how`: check the CRC of each descriptor that is parsed, on opening and in every call on the
     * volume. If one is wrong, the call is refused with VAULT_BAD_CRC. */
    VAULT_CHECKED = 1,
    /* A choice for `how`: a partition reference in a descriptor or an ICB is an index into the logical volume's
     * partition maps, up to four, all of type 1. Without it, references are compared with the partition's number,
     * and those of ICBs are ignored. */
    VAULT_MAPS = 2,
    /* A choice for `how`: of several primary volume, partition or logical volume descriptors, the one with the
     * highest volume descriptor sequence number counts, the later of equals. Without it, the last one counts.
     * Partition descriptors are compared whatever their partition numbers; but with VAULT_MAPS only those of a map's
     * own partition number decide where its partition starts, with this choice or without. */
    VAULT_HIGHEST = 4,
} vault_how;

enum {
    VAULT_SECTOR_SIZE = 2048, /* The number of bytes in a sector, and in a block. */
    VAULT_VERSION = 12, /* Increases whenever a struct or a call changes. */
};

/* For `most`: no limit. Use it for images that you trust. */
#define VAULT_UNLIMITED UINT64_C(18446744073709551615)

enum {
    VAULT_FIGURES = 80, /* The number of numbers in a place of a row of figures. */
};

/* How a volume is read: where its partition starts, the partition's number, whether descriptors are checked, and the
 * partition maps that resolve references, if any. */
typedef struct {
    uint32_t start; /* The sector where the partition starts; for a volume with maps, the file set's partition. */
    uint16_t partition; /* The partition's number. */
    /* If not 0, the body of each descriptor that is parsed must have the CRC that its tag gives; otherwise the call
     * is refused. */
    uint32_t checked;
    /* The number of partition maps. 0: references are compared with `partition`. More than 4 counts as 4. */
    uint32_t maps;
    /* For each map, the volume sequence number, the partition's number and the sector where it starts; zeros if
     * there is none. */
    uint16_t volumes[4];
    uint16_t numbers[4];
    uint32_t starts[4];
} vault_mount;

/* A block of a partition. */
typedef struct {
    uint32_t block; /* Counted from the partition's start. */
    uint16_t partition_ref; /* The partition. */
} vault_lb_addr;

/* The place of something on the disc, such as the ICB of a file or a directory. */
typedef struct {
    uint32_t length; /* In bytes; below 2^30 if it was read from a disc. */
    uint8_t extent_type; /* 0 to 3 if it was read from a disc; 0 is recorded. */
    vault_lb_addr location; /* The first block. */
    uint8_t implementation_use[6]; /* As recorded. */
} vault_long_ad;

/* An opened volume. It holds no pointers: you can copy it, keep it, or make one by hand. */
typedef struct {
    vault_mount mount; /* How it is read. */
    vault_long_ad root; /* The root directory. */
    uint8_t label[32]; /* The label field as recorded. */
} vault_volume;

/* The answer, the count of sectors, and the volume. */
typedef struct {
    uint64_t answer; /* A number of the table. */
    uint64_t count; /* The sectors asked for. */
    vault_volume volume; /* Zeros if opening was refused. */
} vault_opened;

/* The answer, the count of sectors, and a length. */
typedef struct {
    uint64_t answer; /* A number of the table. */
    uint64_t count; /* The sectors asked for. */
    /* The number of bytes or slots of the result. 0 if the call was refused, except for the component that failed. */
    uint64_t length;
} vault_reply;

/* The answer, the count of sectors, and the ICB that a path names. */
typedef struct {
    uint64_t answer; /* A number of the table. */
    uint64_t count; /* The sectors asked for. */
    vault_long_ad icb; /* Zeros if the lookup was refused. */
} vault_found;

/* An extent, as a slot of the extent list gives it. */
typedef struct {
    uint32_t length; /* The effective length: how many bytes of its file are in the extent. */
    uint32_t extent_type; /* 0: recorded. */
    uint32_t block; /* Counted from the partition's start. */
    uint32_t partition; /* 65,536 if the descriptor names none. */
} vault_extent;

/* A run, as a slot gives it: a number of bytes of the image, from a place on. */
typedef struct {
    uint64_t at; /* The offset of its first byte in the image. */
    uint64_t length; /* The number of bytes, at least 1. */
} vault_run;

/* The VAULT_VERSION of the archive. It must equal that of the header. */
uint32_t vault_version(void);

/* Whether the image has a volume recognition sequence. Opening does not depend on it. */
bool vault_probe(const uint8_t *image, size_t image_length);

/* Opens the volume of an image. `how` is the sum of the choices, or 0 for none; any other bit is VAULT_UNSUPPORTED
 * with a count of 0. VAULT_CHECKED and VAULT_MAPS are kept in the volume's mount and apply to every call on the
 * volume. VAULT_HIGHEST leaves no trace in it. */
vault_opened vault_open(const uint8_t *image, size_t image_length, uint32_t how);

/* Opens an image, as vault_open does, and writes its label to `out` as UTF-8, with no terminating zero. `length` is
 * the length of the label. */
vault_reply vault_label(const uint8_t *image, size_t image_length, uint32_t how, uint8_t *out, size_t out_length);

/* Finds the ICB that a path names. Slashes separate the components; empty components are dropped, and the empty path
 * names the root. `matching` says how a component is matched with the names of a directory's entries, except deleted
 * entries and the parent: VAULT_CASE_IGNORED, VAULT_AS_WRITTEN or VAULT_UNAMBIGUOUS. Any other number counts as
 * VAULT_UNAMBIGUOUS. A component that does not exist, or is below a file, is VAULT_NOT_BLURAY. */
vault_found vault_lookup(vault_volume volume, const uint8_t *image, size_t image_length, const uint8_t *path,
                         size_t path_length, vault_matching matching, uint8_t *work, size_t work_length);

/* Finds the component at which that lookup is refused with VAULT_NOT_BLURAY. `length` is the length of the
 * component, and its offset in the path goes to `*component_at`. Both are 0 if no component was refused in this way,
 * for example on VAULT_AMBIGUOUS. The answer and the count are those of the lookup. */
vault_reply vault_failed(vault_volume volume, const uint8_t *image, size_t image_length, const uint8_t *path,
                         size_t path_length, vault_matching matching, uint8_t *work, size_t work_length,
                         size_t *component_at);

/* Lists a directory: one record for each entry except deleted entries and the parent, one after another. A record
 * is:
 *
 *     44 45   1 for a directory, else 0   the ICB's 16 bytes as recorded
 *     the name's length (2 bytes, little-endian)   the name, as UTF-8
 */
vault_reply vault_list(vault_volume volume, const uint8_t *image, size_t image_length, vault_long_ad icb, uint8_t *out,
                       size_t out_length, uint8_t *work, size_t work_length);

/* Lists the volume's whole tree from its root, down to `levels` levels, 1 to 16: one record for each entry that a
 * path of at most that many components leads to. An entry comes before what is below it, and the entries of a
 * directory come in the order of the disc. A record is that of vault_list with the level after the mark; the level
 * is 1 for the root's entries:
 *
 *     44 45   the level   1 for a directory, else 0   the ICB's 16 bytes as recorded
 *     the name's length (2 bytes, little-endian)   the name, as UTF-8
 *
 * A directory at the last level, even an empty one, is VAULT_TOO_DEEP when its turn comes, before it is read. Any
 * other number of levels is VAULT_TOO_DEEP at once. `work` holds the directories on the way down together, one after
 * another: VAULT_NO_WORK counts those above. A directory that contains itself reaches the last level and is
 * VAULT_TOO_DEEP, unless it is VAULT_NO_WORK before that.
 *
 * A directory is read and shown once for each path to it, and a few directories may have more paths than anyone
 * could ever walk. So `most` is the number of sectors that the call may ask for. Instead of asking for one more, it
 * is refused with VAULT_OVER_BUDGET, and the count is then `most`; refusals that it meets earlier are unchanged. A
 * call that stays within `most` gives the same result as with VAULT_UNLIMITED. On a sound disc each sector of a
 * directory is asked for once, so the number of sectors of the image is enough. */
vault_reply vault_show(vault_volume volume, const uint8_t *image, size_t image_length, uint32_t levels, uint64_t most,
                       uint8_t *out, size_t out_length, uint8_t *work, size_t work_length);

/* Reads a file, or the bytes of a directory itself, to `out`. */
vault_reply vault_read(vault_volume volume, const uint8_t *image, size_t image_length, vault_long_ad icb, uint8_t *out,
                       size_t out_length);

/* Returns in `length` how many bytes vault_read gives for that file if there is room. The answer and the count are
 * those of the read. Nothing is written. */
vault_reply vault_measure(vault_volume volume, const uint8_t *image, size_t image_length, vault_long_ad icb);

/* Finds the bytes of an embedded file in the image: `length` bytes from `*part_at` on. For any other file that can
 * be read, the answer is VAULT_DONE and both are 0; they are also 0 if the call is refused. An embedded file of no
 * bytes still has a place. */
vault_reply vault_part(vault_volume volume, const uint8_t *image, size_t image_length, vault_long_ad icb,
                       size_t *part_at);

/* Lists the extents of a file in reading order, one per slot of `row`; `length` is their number. An embedded file
 * has none. An extent's partition is the reference as recorded. Its first sector is its block plus the start of its
 * partition. Without maps in the mount, that start is `start`. With maps, it is the entry of `starts` for the
 * reference; for 65,536 (none), the one for the ICB's reference. */
vault_reply vault_extents(vault_volume volume, const uint8_t *image, size_t image_length, vault_long_ad icb,
                          vault_extent *row, size_t row_slots);

/* Lists the runs of a file: the offset and length of each run of the image that vault_read takes the file's bytes
 * from, in reading order, one per slot of `row`; `length` is their number. Runs are cut as the read is cut. Each has
 * at least one byte and is inside the image, and joined they are what vault_read gives. An empty file has none. Two
 * runs may follow each other in the image, overlap or be equal. The answer and the count are those of the read,
 * except that more runs than slots are VAULT_NO_SLOT, which comes last and takes the place of VAULT_NO_ROOM. */
vault_reply vault_runs(vault_volume volume, const uint8_t *image, size_t image_length, vault_long_ad icb,
                       vault_run *row, size_t row_slots);

/* Looks a path up and reads what it names to `out`. The count covers both. */
vault_reply vault_read_path(vault_volume volume, const uint8_t *image, size_t image_length, const uint8_t *path,
                            size_t path_length, vault_matching matching, uint8_t *out, size_t out_length, uint8_t *work,
                            size_t work_length);

/* Reads many files to `out`, one after another. `paths` holds their paths, separated by zero bytes: n zeros make n +
 * 1 paths, so no bytes are one path. An empty path reads the bytes of the root. For each path in turn, `lengths` and
 * `answers` get its number of bytes and its answer, as vault_read_path gives them for the room that is left. A path
 * that is refused has length 0 and takes no room, and the rest go on. So the answer is VAULT_DONE even if every path
 * was refused; the count is the sum of all, and `length` the bytes of all. If there are more paths than places in
 * either row, the answer is VAULT_TOO_MANY: no sector is asked for, and nothing is written except the zeros of
 * `work`. */
vault_reply vault_read_all(vault_volume volume, const uint8_t *image, size_t image_length, const uint8_t *paths,
                           size_t paths_length, vault_matching matching, uint8_t *out, size_t out_length,
                           uint64_t *lengths, size_t lengths_places, uint32_t *answers, size_t answers_places,
                           uint8_t *work, size_t work_length);

/* ---- Writing: a complete image of up to 64 files in one directory, made from a staging area in memory that is
 * lent. docs/LAYOUT.md describes every sector of it.
 *
 * A refusal here has no sectors and leaves `image` unchanged. `names` and `lengths` are read more than once and must
 * not change during a call: what is said above of an image that changes does not hold for them. If `staging` changes
 * during the call, the bytes of the files may be mixed, and nothing else. */

/* The answer, and how many sectors the image has; 0 if the call was refused. */
typedef struct {
    uint64_t answer;
    uint64_t sectors;
} vault_write_reply;

/* Returns how many sectors of 2,048 bytes the image of these files has. `names` holds their names, each terminated
 * by a zero byte, and `lengths` the number of bytes of each. A name has 1 to 127 bytes from 21 to 7E, without 2F.
 * Any other name, a rest without its zero byte, and two names that are equal with ASCII case ignored are
 * VAULT_BAD_NAME. More than 64 files, different numbers of names and lengths, and a file of more than 1,073,739,776
 * bytes are VAULT_BAD_FILES. */
vault_write_reply vault_write_total(const uint8_t *names, size_t names_length, const uint64_t *lengths,
                                    size_t lengths_places);

/* Writes that image to the front of `image` and leaves the rest unchanged. The answer has its sectors. The files are
 * in `staging` one after another, from its front, in the order of their names. The refusals are those of
 * vault_write_total; then VAULT_BAD_FILES if the lengths exceed `staging`; then VAULT_NO_ROOM if the image has more
 * sectors than `image` has whole ones. */
vault_write_reply vault_write(const uint8_t *names, size_t names_length, const uint64_t *lengths, size_t lengths_places,
                              const uint8_t *staging, size_t staging_length, uint8_t *image, size_t image_length);

/* ---- Reading straight from a drive, with no image in memory: a state names the sector that it wants, is lent its
 * bytes, and continues.
 *
 * A state is passed by value and holds no pointers. While it wants a sector, lend a step the 2,048 bytes of that
 * sector. Any other length, such as that of (NULL, 0), means that the sector can't be read, which is VAULT_IO. A
 * state that has ended has its answer, and a step does not change it. You may step any state, even one made by hand
 * whose bools are 0 or 1: the step stays inside what it was lent, and every state reaches its end.
 *
 * The sectors wanted, the answer and the count are those of vault_open without choices, and of vault_read. One
 * difference: in a read, VAULT_NO_SLOT and VAULT_NO_ROOM may come before a later refusal; the sectors wanted are
 * then the front of that list. Another: what is said above of `out` and the slots after a refusal does not hold for
 * a read by steps. What had arrived stays in `out`, and the row is zeroed. The steps have the contracts of crate
 * drives.
 *
 * A file of any length fits through a buffer of 2,048 bytes, the most that a step delivers. After each step, take
 * the `length` bytes that have arrived out of the buffer, set `length` to 0, and lend the next step the same buffer.
 * All extents of the file wait in the row, however many there are. A sector names at most 256, and the first
 * `scan.listed` slots are in use: before a step, lengthen the row if fewer than 256 are left. The row may move, as
 * with realloc, and its new slots may hold anything. packaging/window.c does all of this. */

/* What is kept of the three descriptors between sectors, each with its volume descriptor sequence number. */
typedef struct {
    bool has_primary;
    uint32_t primary_sequence;
    uint8_t label[32];
    bool has_partition;
    uint32_t partition_sequence;
    uint16_t partition_number;
    uint32_t partition_start;
    bool has_logical;
    uint32_t logical_sequence;
    uint32_t block_size;
    vault_long_ad file_set;
    /* The front of the map table as recorded, its length in bytes, and its number of maps. */
    uint32_t map_table_length;
    uint32_t map_count;
    uint8_t maps[24];
} vault_kept;

/* An opening in progress. */
typedef struct {
    /* What is wanted: 0, the anchor; 1, a sector of the sequence; 2, the file set descriptor. To find out whether
     * the opening has ended, call is_wanting; don't look at the phase: a state made by hand may have ended in any
     * phase. */
    uint8_t phase;
    uint64_t at; /* The sector wanted. */
    uint32_t left; /* The number of sectors of the sequence after it. */
    vault_kept kept; /* What was kept of the descriptors so far. */
    /* The answer, how many sectors were wanted and have come or could not be read, and the volume. All zero, except
     * the count, until the opening has ended. */
    vault_opened opened;
} vault_opening;

/* A place in an area. */
typedef struct {
    size_t listed; /* The number of places of the row that hold extents. */
    bool full; /* An extent of this area found no free place. */
    /* 0: the area continues; 1: it has ended; 2: it has ended with a continuation; any other: it is refused with 4. */
    uint8_t closed;
    size_t carried; /* The bytes of the descriptor that has begun to arrive, and their number. */
    uint8_t carry[20];
    uint32_t next_length; /* The continuation. */
    uint32_t next_block;
    uint32_t next_reference;
} vault_scan;

/* A continuation that arrives in parts: what its header said, and what is still to come of its body and its area. */
typedef struct {
    bool tagged; /* The tag is valid. */
    bool headed; /* The tag is that of a header, and the area that the header gives fits the continuation. */
    uint16_t crc; /* The tag's CRC, the CRC of the body so far, and how many bytes of the body are still to come. */
    uint16_t summed;
    uint32_t body_left;
    uint32_t area_left; /* How many bytes of the area are still to come. */
} vault_body;

/* A read in progress. */
typedef struct {
    /* What is wanted: 0, the file entry; 1, the first sector of a continuation; 2, a further one; 3, a sector of an
     * extent. To find out whether the read has ended, call is_wanting; don't look at the phase: a state made by hand
     * may have ended in any phase. */
    uint8_t phase;
    uint64_t at; /* The sector wanted, and how many after it belong to the same continuation or extent. */
    uint32_t left;
    vault_mount mount; /* How the entry's descriptors are read, their kind, and how many continuations may follow. */
    uint8_t kind;
    uint8_t hops;
    uint64_t missing; /* How many bytes of the information length are still missing. */
    uint32_t size; /* The bytes of the continuation, or those of the extent from the wanted sector on. */
    size_t next; /* The place in the row of the extent after the one being read. */
    vault_scan scan;
    vault_body body;
    /* The answer, 0 until the read has ended; how many sectors were wanted and have come or could not be read; how
     * many bytes have arrived in the output. */
    uint64_t answer;
    uint64_t count;
    size_t length;
} vault_reading;

/* The ICB of an entry, and whether it is a directory. Zeros if no entry has the name, or if the directory is
 * refused. */
typedef struct {
    uint64_t answer; /* A number of the table; 0 also if no entry has the name. */
    bool found; /* Whether an entry has the name. */
    vault_long_ad icb;
    bool directory; /* Whether the entry is a directory. */
} vault_named;

/* The place of a component in a path. */
typedef struct {
    size_t at; /* Its offset in the path. */
    size_t length; /* Its length; 0 if there is none. */
} vault_component;

/* Starts an opening, as vault_open with a `how` of 0. When it has ended, `opened` is the result. */
vault_opening vault_opening_start(void);

/* Whether a sector is wanted. If not, the opening has ended. */
bool vault_opening_is_wanting(vault_opening opening);

/* The sector wanted, counted from the start of the disc; 0 if the opening has ended. */
uint64_t vault_opening_wants(vault_opening opening);

/* Takes the sector wanted and returns the next state. */
vault_opening vault_opening_step(vault_opening opening, const uint8_t *sector, size_t sector_length);

/* Starts a read of a file or of the bytes of a directory itself, as vault_read. It ends at once if the ICB has no
 * length or no place.
 *
 * The file's extents wait in `row`, one per slot. The row is zeroed here: lend every step the same row, unchanged.
 * It may grow between steps, and so may the output. An extent that finds no free slot ends the read with
 * VAULT_NO_SLOT, once its entry or continuation has arrived completely and is valid. */
vault_reading vault_reading_start(vault_volume volume, vault_long_ad icb, vault_extent *row, size_t row_slots);

/* Whether a sector is wanted. If not, the read has ended. */
bool vault_reading_is_wanting(vault_reading reading);

/* The sector wanted, counted from the start of the disc; 0 if the read has ended. */
uint64_t vault_reading_wants(vault_reading reading);

/* Takes the sector wanted and returns the next state. The bytes of the file in this sector go to `out` after the
 * `length` bytes that have arrived, as many as fit; a byte that does not fit ends the read with VAULT_NO_ROOM.
 * Nothing after them is written, and what has arrived stays even after a refusal. The whole row is zeroed when the
 * read ends, whatever the answer. */
vault_reading vault_reading_step(vault_reading reading, const uint8_t *sector, size_t sector_length, vault_extent *row,
                                 size_t row_slots, uint8_t *out, size_t out_length);

/* Lists a directory whose bytes you have, as vault_list does; the count is 0. Of `volume`, only whether descriptors
 * are checked is used. */
vault_reply vault_list_bytes(vault_volume volume, const uint8_t *bytes, size_t bytes_length, uint8_t *out,
                             size_t out_length);

/* Finds the entry that a component of a path names in a directory whose bytes you have, as vault_lookup matches it.
 * If no entry has the name, the answer is VAULT_DONE and `found` is false. Two or more entries under
 * VAULT_UNAMBIGUOUS are VAULT_AMBIGUOUS. One bad entry refuses the directory. The empty component is the name of an
 * entry without a name. */
vault_named vault_match(vault_volume volume, const uint8_t *bytes, size_t bytes_length, const uint8_t *component,
                        size_t component_length, vault_matching matching);

/* Finds the first component of a path from `at` on; its length is 0 if there is none. Start at 0 and continue from
 * the end of each component: they come in the order in which vault_lookup takes them. */
vault_component vault_next_component(const uint8_t *path, size_t path_length, size_t at);

/* ---- Surveys: figures over a shelf of images, one after another.
 *
 * The figures of an image, or of the shelf, are one place in a row of 64-bit numbers: a struct vault_figures of
 * VAULT_FIGURES numbers. Pass the row's address and its length in numbers. Figures are exact; one that exceeds 2^64
 * - 1 is given as 2^64 - 1 and marked as over. */

/* A figure. */
typedef struct {
    uint64_t number; /* At most 2^64 - 1. */
    uint64_t over; /* 1 if the figure exceeds 2^64 - 1, otherwise 0. */
} vault_figure;

/* The figures of an image or of a shelf. Files and directories are those that vault_show lists at 16 levels, each
 * counted once for each path. The root is not counted. */
typedef struct {
    vault_figure files; /* Files found, including those that can't be read. */
    vault_figure directories;
    vault_figure bytes; /* The sum of what vault_measure gives for each file. */
    vault_figure extents; /* The extents that vault_extents lists for the files that can be read. */
    /* The counts of reading each file, including files that are refused. Not included are the sectors of opening, of
     * the tree and of the extent lists. */
    vault_figure sectors;
    vault_figure files_by_answer[17]; /* How many files have each answer. None has VAULT_OVER_BUDGET. */
    /* How many images have each answer, of their opening or their tree; or VAULT_OVER_BUDGET, if these and the reads
     * of the files together need more sectors than `most`. An image with an answer other than 0 has no other figure. */
    vault_figure images_by_answer[17];
    /* The largest number of continuations of allocation descriptors that were followed for a file that can be read. */
    vault_figure chain;
} vault_figures;

/* Computes the figures of images that are in `shelf` one after another, from its front, each as long as `lengths`
 * says: one place for each in turn, and after them one for all. `how` is as in vault_open, and `work` as in
 * vault_show. The answer is VAULT_DONE even if every image is refused. It is VAULT_BAD_SHELF if the lengths exceed
 * `shelf`, or if there are fewer places than the number of images plus one; then nothing is written except the zeros
 * of `work`. Further places are unchanged.
 *
 * Each image has its own budget of `most` sectors. Its opening, its tree and the reads of its files, in their order,
 * each have what those before have left, by their counts. An image that needs more counts under VAULT_OVER_BUDGET,
 * and the next one follows. Extents and chains are looked up besides the reads, and that is not counted. On a sound
 * disc each sector is asked for once, and the sectors of a file once for each path to it. VAULT_UNLIMITED is no
 * budget. */
uint64_t vault_survey(const uint8_t *shelf, size_t shelf_length, const uint64_t *lengths, size_t lengths_places,
                      uint32_t how, uint64_t most, uint64_t *figures, size_t figures_places, uint8_t *work,
                      size_t work_length);

/* Writes the total of the first `images` places of a row to the place after them. Use it for images that are not in
 * one slice and were surveyed one by one. The answer is VAULT_DONE; or VAULT_BAD_SHELF if there are too few places,
 * and then nothing is written. */
uint64_t vault_survey_total(uint64_t *figures, size_t figures_places, size_t images);

/* The meaning of an answer, as a sentence without its full stop. */
static inline const char *vault_answer_text(uint64_t answer) {
    switch (answer) {
    case VAULT_DONE:
        return "Done";
    case VAULT_IO:
        return "A sector that was asked for is not completely inside the image";
    case VAULT_MALFORMED:
        return "Too few bytes, or an invalid descriptor, tag, name or length";
    case VAULT_NOT_BLURAY:
        return "No volume, or no such path";
    case VAULT_UNSUPPORTED:
        return "Not supported: another block size or partition, partition maps other than up to four of type 1, a compressed or unrecorded extent, a continuation of more than 1,048,576 bytes; or an unknown bit in how";
    case VAULT_NO_ROOM:
        return "The result has more bytes than out";
    case VAULT_NO_WORK:
        return "A directory has more bytes than work; in a show, more than work has left after the directories above it";
    case VAULT_NO_SLOT:
        return "There are more extents or runs than slots";
    case VAULT_AMBIGUOUS:
        return "A component of the path matches two or more entries of its directory, and the choice of matching allows only one";
    case VAULT_BAD_CRC:
        return "A descriptor that is checked has a wrong CRC, or a CRC length that exceeds the available bytes";
    case VAULT_TOO_DEEP:
        return "A directory is at the last level that was asked for, or the number of levels is 0 or more than 16";
    case VAULT_TOO_MANY:
        return "There are more paths than places for their lengths or their answers";
    case VAULT_BAD_NAME:
        return "A name of an image to be written is invalid, or two names are equal with ASCII case ignored";
    case VAULT_BAD_FILES:
        return "The files of an image to be written: too many files, different numbers of names and lengths, a file that is too long, or lengths that exceed the staging area";
    case VAULT_BAD_SHELF:
        return "The lengths of a shelf's images exceed the bytes lent, or there are too few places for the figures of each image and of the shelf";
    case VAULT_OVER_BUDGET:
        return "The call would ask for more sectors than its budget allows (most)";
    default:
        return "An unknown number";
    }
}

/* An entry of a listing. Its name points into the listing itself, and is not terminated by a zero. */
typedef struct {
    const uint8_t *name; /* UTF-8. */
    size_t name_length;
    vault_long_ad icb; /* The ICB of the file or directory. */
    uint8_t level; /* In a show, the number of names in its path; 0 in a listing. */
    bool directory;
} vault_entry;

/* Takes the record at `*at` from a listing (`levels` false: vault_list, vault_list_bytes) or a show (true: vault_show)
 * of `length` bytes, and moves `*at` past it; start with 0. Returns false if there is no complete record, and then
 * leaves `*at` and `*entry` unchanged. It stays within the `length` bytes, whatever they are.
 *
 * A walk that lists every directory it finds never ends if a directory contains itself or one above it: limit its depth,
 * or remember the blocks of the directories that it has listed. vault_show limits the depth to 16. */
static inline bool vault_next_record(const uint8_t *listing, size_t length, bool levels, size_t *at,
                                     vault_entry *entry) {
    size_t head = levels ? 22 : 21; /* The mark, the level, the kind, the ICB and the name's length. */
    if (*at > length || length - *at < head) return false;
    const uint8_t *r = listing + *at, *icb = r + head - 18;
    size_t name = (size_t)(r[head - 2] | r[head - 1] << 8);
    if (r[0] != 0x44 || r[1] != 0x45 || length - *at - head < name) return false;
    uint32_t raw = icb[0] | (uint32_t)icb[1] << 8 | (uint32_t)icb[2] << 16 | (uint32_t)icb[3] << 24;
    entry->name = r + head;
    entry->name_length = name;
    entry->icb.length = raw & 0x3fffffff;
    entry->icb.extent_type = (uint8_t)(raw >> 30);
    entry->icb.location.block = icb[4] | (uint32_t)icb[5] << 8 | (uint32_t)icb[6] << 16 | (uint32_t)icb[7] << 24;
    entry->icb.location.partition_ref = (uint16_t)(icb[8] | icb[9] << 8);
    for (int i = 0; i < 6; i++) entry->icb.implementation_use[i] = icb[10 + i];
    entry->level = levels ? r[2] : 0;
    entry->directory = r[head - 19] == 1;
    *at += head + name;
    return true;
}

#ifdef __cplusplus
}
#endif

#endif
