/* records.h: Parses and encodes the raw records of a UDF disc (ECMA-167, OSTA UDF), for C.
 *
 * Link target/staticlib/librecords_c.a, which `tools/archives proved` makes from the proved sources. Each call has
 * the contract of the call that it passes on, of a crate below.
 *
 * Nothing here allocates, keeps or frees memory. Lent pieces must not overlap. A piece of length 0 may have a null
 * pointer. No piece has more than PTRDIFF_MAX bytes.
 *
 * A record is parsed at the front of `bytes`; what follows it is ignored. Every call that parses or decodes returns
 * an answer. If it is refused, all its values are zero and `out` is unchanged. Fields have the names of ECMA-167 and
 * are as recorded, unless this header says otherwise. If `bytes` change during a call, the result may match no state
 * of `bytes`; the call stays inside the memory that it was lent, and writes nothing past the length that it returns.
 *
 * The numbers are those of vault.h. Used here: RECORDS_DONE, RECORDS_MALFORMED, RECORDS_NO_ROOM.
 *
 * Made by tools/faces.py from the comments and declarations of crates/records_c. */
#ifndef RECORDS_H
#define RECORDS_H

#include <stdbool.h>
#include <stddef.h>
#include <stdint.h>

#ifdef __cplusplus
extern "C" {
#endif

/* The answer of a call: done, or why it is refused. */
typedef enum records_answer {
    RECORDS_DONE = 0, /* Done. */
    RECORDS_MALFORMED = 2, /* Too few bytes, or an invalid descriptor, tag, name or length. */
    RECORDS_NO_ROOM = 5, /* The result has more bytes than `out`. */
} records_answer;

/* ---- Allocation descriptors: extent_ad, short_ad, lb_addr, long_ad and ext_ad.
 *
 * A raw length has 30 bits of length below 2 bits of type. Encoding keeps that many bits of each, and 30 bits of an
 * ext_ad's recorded length. */

typedef struct {
    uint32_t length;
    uint32_t location;
} records_extent_ad;

typedef struct {
    uint32_t length;
    uint8_t extent_type;
    uint32_t block_location;
} records_short_ad;

/* A block of a partition. */
typedef struct {
    uint32_t block; /* Counted from the partition's start. */
    uint16_t partition_ref; /* The partition. */
} records_lb_addr;

/* The place of something on the disc, such as the ICB of a file or a directory. */
typedef struct {
    uint32_t length; /* In bytes; below 2^30 if it was read from a disc. */
    uint8_t extent_type; /* 0 to 3 if it was read from a disc; 0 is recorded. */
    records_lb_addr location; /* The first block. */
    uint8_t implementation_use[6]; /* As recorded. */
} records_long_ad;

typedef struct {
    uint32_t length;
    uint8_t extent_type;
    uint32_t recorded_length; /* 30 bits of the recorded number. */
    uint32_t information_length;
    records_lb_addr location;
    uint8_t implementation_use[2];
} records_ext_ad;

typedef struct {
    uint64_t answer;
    records_extent_ad value;
} records_extent_ad_answer;

typedef struct {
    uint64_t answer;
    records_short_ad value;
} records_short_ad_answer;

typedef struct {
    uint64_t answer;
    records_lb_addr value;
} records_lb_addr_answer;

typedef struct {
    uint64_t answer;
    records_long_ad value;
} records_long_ad_answer;

typedef struct {
    uint64_t answer;
    records_ext_ad value;
} records_ext_ad_answer;

typedef struct {
    uint8_t bytes[8];
} records_extent_ad_bytes;

typedef struct {
    uint8_t bytes[8];
} records_short_ad_bytes;

typedef struct {
    uint8_t bytes[6];
} records_lb_addr_bytes;

typedef struct {
    uint8_t bytes[16];
} records_long_ad_bytes;

typedef struct {
    uint8_t bytes[20];
} records_ext_ad_bytes;

records_extent_ad_answer records_parse_extent_ad(const uint8_t *bytes, size_t bytes_length);
records_extent_ad_bytes records_encode_extent_ad(records_extent_ad value);
records_short_ad_answer records_parse_short_ad(const uint8_t *bytes, size_t bytes_length);
records_short_ad_bytes records_encode_short_ad(records_short_ad value);
records_lb_addr_answer records_parse_lb_addr(const uint8_t *bytes, size_t bytes_length);
records_lb_addr_bytes records_encode_lb_addr(records_lb_addr value);
records_long_ad_answer records_parse_long_ad(const uint8_t *bytes, size_t bytes_length);
records_long_ad_bytes records_encode_long_ad(records_long_ad value);
records_ext_ad_answer records_parse_ext_ad(const uint8_t *bytes, size_t bytes_length);
records_ext_ad_bytes records_encode_ext_ad(records_ext_ad value);

/* ---- Names: d-strings and d-string fields as UTF-8.
 *
 * Decodes the name of a d-string, which is the whole of `bytes`, or of a d-string field, whose last byte gives the
 * length of its d-string. The name goes to the front of `out` as UTF-8, with no terminating zero; `length` is its
 * length. */

/* The answer, and how many bytes were written; 0 if it is a refusal. */
typedef struct {
    uint64_t answer;
    uint64_t length;
} records_written;

/* Writes the name of the d-string to the front of `out`. */
records_written records_decode_dstring(const uint8_t *bytes, size_t bytes_length, uint8_t *out, size_t out_length);

/* Writes the name in the d-string field to the front of `out`. */
records_written records_decode_dstring_field(const uint8_t *bytes, size_t bytes_length, uint8_t *out,
                                             size_t out_length);

/* ---- The descriptor tag, its CRC, and the header of an allocation extent.
 *
 * A tag is refused unless its id is 1 to 9 or 256 to 266, its reserved byte is 0 and its checksum is right. Only
 * records_tag_body checks the CRC. Encoding takes any id and computes the checksum. A header is a tag with id 258
 * and two numbers. */

/* The id is a number. Parsing accepts only the ids above. */
typedef struct {
    uint16_t id;
    uint16_t descriptor_version;
    uint16_t serial_number;
    uint16_t crc;
    uint16_t crc_length;
    uint32_t location;
} records_tag;

typedef struct {
    records_tag tag;
    uint32_t previous_allocation_extent_location;
    uint32_t length_of_allocation_descriptors;
} records_aed;

typedef struct {
    uint64_t answer;
    records_tag value;
} records_tag_answer;

typedef struct {
    uint64_t answer;
    records_aed value;
} records_aed_answer;

typedef struct {
    uint8_t bytes[16];
} records_tag_bytes;

typedef struct {
    uint8_t bytes[24];
} records_aed_bytes;

records_tag_answer records_parse_tag(const uint8_t *bytes, size_t bytes_length);
records_tag_bytes records_encode_tag(records_tag value);

/* The place check: whether the tag's location is the number that it must be. `sector` and `block` are those that
 * hold the descriptor's first byte, counted from the start of the disc and of its partition. Ids 256 to 266 go by
 * the block, all others by the sector. */
bool records_tag_in_place(records_tag tag, uint64_t sector, uint32_t block);

/* The CRC of `bytes`, as a tag holds it for its descriptor's body: x^16 + x^12 + x^5 + 1, starting at 0, highest bit
 * of a byte first. */
uint16_t records_crc(const uint8_t *bytes, size_t bytes_length);

/* The body check: whether `bytes`, which start with the descriptor's tag in the first 16, hold as many bytes after
 * it as the tag's CRC length says, and these have the tag's CRC. A CRC length of 0 has the CRC 0. */
bool records_tag_body(records_tag tag, const uint8_t *bytes, size_t bytes_length);

records_aed_answer records_parse_aed(const uint8_t *bytes, size_t bytes_length);
records_aed_bytes records_encode_aed(records_aed value);

/* ---- File structure: the ICB tag, the entry of a file, and the entry of a directory. */

typedef struct {
    uint32_t prior_recorded_entries;
    uint16_t strategy_type;
    uint16_t strategy_parameter;
    uint16_t max_entries;
    uint8_t file_type; /* 4: a directory. */
    records_lb_addr parent_icb;
    uint16_t flags;
} records_icb_tag;

/* A file entry (id 261) or an extended one (266). The area of allocation descriptors, or the embedded file, is in
 * `bytes` from `area_at` on. It is inside `bytes`, and is not looked at here. The object size, an enum in the entry,
 * is passed as a bool and a number. */
typedef struct {
    records_tag tag;
    records_icb_tag icb_tag;
    uint32_t uid;
    uint32_t gid;
    uint32_t permissions;
    uint16_t file_link_count;
    uint8_t record_format;
    uint8_t record_display_attributes;
    uint32_t record_length;
    uint64_t information_length;
    uint64_t logical_blocks_recorded;
    bool has_object_size; /* Whether there is one: an extended entry has it. */
    uint64_t object_size; /* 0 if there is none. */
    uint32_t length_of_extended_attributes;
    uint32_t length_of_allocation_descriptors;
    uint8_t kind; /* The kind of the area: 0 short_ad, 1 long_ad, 2 ext_ad, 3 the file itself. */
    size_t area_at;
    size_t area_length;
} records_file_entry;

/* An entry of a directory (id 257). Its name, a d-string of `name_length` bytes, is at `name_at`; as UTF-8 it has
 * `name_size` bytes. The next entry starts `total_size` bytes further. */
typedef struct {
    records_tag tag;
    uint16_t file_version_number;
    uint8_t file_characteristics; /* 2: a directory; 4: deleted; 8: the parent. */
    records_long_ad icb;
    size_t name_at;
    size_t name_length;
    size_t name_size;
    size_t total_size;
} records_file_identifier;

typedef struct {
    uint64_t answer;
    records_icb_tag value;
} records_icb_tag_answer;

typedef struct {
    uint64_t answer;
    records_file_entry value;
} records_file_entry_answer;

typedef struct {
    uint64_t answer;
    records_file_identifier value;
} records_file_identifier_answer;

records_icb_tag_answer records_parse_icb_tag(const uint8_t *bytes, size_t bytes_length);
records_file_entry_answer records_parse_file_entry(const uint8_t *bytes, size_t bytes_length);
records_file_identifier_answer records_parse_file_identifier(const uint8_t *bytes, size_t bytes_length);

/* ---- Volume structure: the anchor, the descriptors of a volume descriptor sequence, and the file set descriptor.
 *
 * Each begins with a tag that has its id (2, 1, 5, 6, 256). Identifiers are d-string fields as recorded; one that
 * can't be decoded is refused. */

typedef struct {
    records_tag tag;
    records_extent_ad main_volume_descriptor_sequence;
    records_extent_ad reserve_volume_descriptor_sequence;
} records_anchor;

/* The volume identifier is the label field as recorded. */
typedef struct {
    records_tag tag;
    uint32_t volume_descriptor_sequence_number;
    uint32_t primary_volume_descriptor_number;
    uint8_t volume_identifier[32];
} records_primary_volume;

/* The start and the length are in logical sectors. */
typedef struct {
    records_tag tag;
    uint32_t volume_descriptor_sequence_number;
    uint16_t partition_flags;
    uint16_t partition_number;
    uint32_t partition_starting_location;
    uint32_t partition_length;
} records_partition;

/* The identifier is the label field as recorded. */
typedef struct {
    records_tag tag;
    uint32_t volume_descriptor_sequence_number;
    uint8_t logical_volume_identifier[128];
    uint32_t logical_block_size; /* In bytes. */
    records_long_ad file_set_descriptor_location;
    uint32_t map_table_length; /* In bytes. */
    uint32_t number_of_partition_maps;
    /* The first 24 bytes of the map table, as recorded; zeros past the end of the given bytes. */
    uint8_t partition_maps[24];
} records_logical_volume;

typedef struct {
    records_tag tag;
    records_long_ad root_directory_icb;
} records_file_set;

typedef struct {
    uint64_t answer;
    records_anchor value;
} records_anchor_answer;

typedef struct {
    uint64_t answer;
    records_primary_volume value;
} records_primary_volume_answer;

typedef struct {
    uint64_t answer;
    records_partition value;
} records_partition_answer;

typedef struct {
    uint64_t answer;
    records_logical_volume value;
} records_logical_volume_answer;

typedef struct {
    uint64_t answer;
    records_file_set value;
} records_file_set_answer;

records_anchor_answer records_parse_anchor(const uint8_t *bytes, size_t bytes_length);
records_primary_volume_answer records_parse_primary_volume(const uint8_t *bytes, size_t bytes_length);
records_partition_answer records_parse_partition(const uint8_t *bytes, size_t bytes_length);
records_logical_volume_answer records_parse_logical_volume(const uint8_t *bytes, size_t bytes_length);
records_file_set_answer records_parse_file_set(const uint8_t *bytes, size_t bytes_length);

#ifdef __cplusplus
}
#endif

#endif
