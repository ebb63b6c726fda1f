/* records.c: every call of records.h, on the worked table of the small records and on records by hand.
 *
 * It is C11 and C++17. What is expected is read off ECMA-167's layouts. Ends with 0, or says what isn't so. */
#include "expect.h"
#include "records.h"

enum { FREE = 0xa5 };

/* Puts a number of n bytes, the lowest first. */
static void put(uint8_t *to, uint64_t number, size_t n) {
    for (size_t i = 0; i < n; i++) to[i] = (uint8_t)(number >> 8 * i);
}

static bool is_all(const void *from, size_t n, uint8_t byte) {
    for (size_t i = 0; i < n; i++)
        if (((const uint8_t *)from)[i] != byte) return false;
    return true;
}

/* Tags 1 to 5 of the worked table: a good one, and what is refused. */
static const uint8_t good_tag[16] = {2, 0, 3, 0, 6, 0, 0, 0, 0, 0, 0, 0, 0, 1, 0, 0};

static bool is_refused(records_tag_answer r) {
    records_tag t = r.value;
    return r.answer == RECORDS_MALFORMED && !(t.id | t.descriptor_version | t.serial_number | t.crc | t.crc_length | t.location);
}

static void tags(void) {
    uint8_t bytes[16];
    records_tag_answer r = records_parse_tag(good_tag, 16);
    records_tag t = r.value;
    EXPECT(r.answer == RECORDS_DONE && t.id == 2 && t.descriptor_version == 3 && t.serial_number == 0);
    EXPECT(t.crc == 0 && t.crc_length == 0 && t.location == 256);
    EXPECT(!memcmp(records_encode_tag(t).bytes, good_tag, 16));
    memcpy(bytes, good_tag, 16);
    bytes[4] = 7;
    EXPECT(is_refused(records_parse_tag(bytes, 16)));
    bytes[5] = 1;
    EXPECT(is_refused(records_parse_tag(bytes, 16)));
    EXPECT(is_refused(records_parse_tag(good_tag, 15)) && is_refused(records_parse_tag(NULL, 0)));
    memset(bytes, 0, 16);
    EXPECT(is_refused(records_parse_tag(bytes, 16)));
    t.serial_number = 0x1234;
    t.crc = 0x5678;
    t.crc_length = 0x9abc;
    t.location = 0xdef01234;
    r = records_parse_tag(records_encode_tag(t).bytes, 16);
    EXPECT(r.answer == RECORDS_DONE && r.value.serial_number == 0x1234 && r.value.crc == 0x5678 && r.value.crc_length == 0x9abc);
    EXPECT(r.value.location == 0xdef01234);
}

/* Ids 256 to 266 go by the block, and every other id by the sector. */
static void places(void) {
    records_tag t = records_parse_tag(good_tag, 16).value;
    EXPECT(records_tag_in_place(t, 256, 7) && !records_tag_in_place(t, 7, 256) && !records_tag_in_place(t, 256 + ((uint64_t)1 << 32), 7));
    t.id = 261;
    EXPECT(records_tag_in_place(t, 7, 256) && !records_tag_in_place(t, 256, 7));
    t.id = 10;
    EXPECT(records_tag_in_place(t, 256, 7) && !records_tag_in_place(t, 7, 256));
}

/* ECMA-167 3/7.2.6 has an example: the CRC of 70 6A 77 is 3299. */
static void bodies(void) {
    static const uint8_t example[3] = {0x70, 0x6a, 0x77};
    uint8_t whole[20];
    records_tag t = records_parse_tag(good_tag, 16).value;
    EXPECT(records_crc(example, 3) == 0x3299 && records_crc(NULL, 0) == 0);
    memset(whole, FREE, sizeof whole);
    memcpy(whole + 16, example, 3);
    t.crc = 0x3299;
    t.crc_length = 3;
    EXPECT(records_tag_body(t, whole, 19) && records_tag_body(t, whole, 20) && !records_tag_body(t, whole, 18));
    whole[18] ^= 1;
    EXPECT(!records_tag_body(t, whole, 19));
    t.crc_length = 0;
    EXPECT(!records_tag_body(t, whole, 19));
    t.crc = 0;
    EXPECT(records_tag_body(t, whole, 19));
}

/* Case 6 of the worked table, and each type of an extent: 30 bits of a raw length are the length, and 2 the type. */
static void short_ads(void) {
    static const uint8_t one[8] = {0, 8, 0, 0x40, 5, 0, 0, 0};
    records_short_ad_answer r = records_parse_short_ad(one, 8);
    EXPECT(r.answer == RECORDS_DONE && r.value.length == 2048 && r.value.extent_type == 1 && r.value.block_location == 5);
    EXPECT(!memcmp(records_encode_short_ad(r.value).bytes, one, 8));
    EXPECT(records_parse_short_ad(one, 7).answer == RECORDS_MALFORMED && records_parse_short_ad(one, 7).value.length == 0);
    for (uint32_t type = 0; type < 4; type++) {
        uint8_t bytes[8];
        put(bytes, type << 30 | 0x3fffffff, 4);
        put(bytes + 4, 0xfedcba98, 4);
        r = records_parse_short_ad(bytes, 8);
        EXPECT(r.answer == RECORDS_DONE && r.value.length == 0x3fffffff && r.value.extent_type == type && r.value.block_location == 0xfedcba98);
        EXPECT(!memcmp(records_encode_short_ad(r.value).bytes, bytes, 8));
    }
}

/* An extent_ad has no type; an lb_addr is a block and a partition. */
static void extents(void) {
    uint8_t bytes[8];
    put(bytes, 0xc0000800, 4);
    put(bytes + 4, 0x01020304, 4);
    records_extent_ad_answer e = records_parse_extent_ad(bytes, 8);
    EXPECT(e.answer == RECORDS_DONE && e.value.length == 0xc0000800 && e.value.location == 0x01020304);
    EXPECT(!memcmp(records_encode_extent_ad(e.value).bytes, bytes, 8) && records_parse_extent_ad(bytes, 7).answer == RECORDS_MALFORMED);
    records_lb_addr_answer a = records_parse_lb_addr(bytes, 6);
    EXPECT(a.answer == RECORDS_DONE && a.value.block == 0xc0000800 && a.value.partition_ref == 0x0304);
    EXPECT(!memcmp(records_encode_lb_addr(a.value).bytes, bytes, 6) && records_parse_lb_addr(bytes, 5).answer == RECORDS_MALFORMED);
}

static void long_ads(void) {
    uint8_t bytes[16];
    for (uint32_t type = 0; type < 4; type++) {
        put(bytes, type << 30 | 24, 4);
        put(bytes + 4, 9, 4);
        put(bytes + 8, 1, 2);
        put(bytes + 10, 0x665544332211, 6);
        records_long_ad_answer r = records_parse_long_ad(bytes, 16);
        EXPECT(r.answer == RECORDS_DONE && r.value.length == 24 && r.value.extent_type == type);
        EXPECT(r.value.location.block == 9 && r.value.location.partition_ref == 1 && !memcmp(r.value.implementation_use, bytes + 10, 6));
        EXPECT(!memcmp(records_encode_long_ad(r.value).bytes, bytes, 16) && records_parse_long_ad(bytes, 15).answer == RECORDS_MALFORMED);
    }
}

static void ext_ads(void) {
    uint8_t bytes[20];
    for (uint32_t type = 0; type < 4; type++) {
        put(bytes, type << 30 | 4096, 4);
        put(bytes + 4, 4000, 4);
        put(bytes + 8, 0x87654321, 4);
        put(bytes + 12, 11, 4);
        put(bytes + 16, 0x0102, 2);
        put(bytes + 18, 0x0403, 2);
        records_ext_ad_answer r = records_parse_ext_ad(bytes, 20);
        EXPECT(r.answer == RECORDS_DONE && r.value.length == 4096 && r.value.extent_type == type && r.value.recorded_length == 4000);
        EXPECT(r.value.information_length == 0x87654321 && r.value.location.block == 11 && r.value.location.partition_ref == 0x0102);
        EXPECT(r.value.implementation_use[0] == 3 && r.value.implementation_use[1] == 4);
        EXPECT(!memcmp(records_encode_ext_ad(r.value).bytes, bytes, 20) && records_parse_ext_ad(bytes, 19).answer == RECORDS_MALFORMED);
    }
}

/* A tag with an id, whose checksum is made. */
static records_tag tag_of(uint16_t id) {
    records_tag t = records_parse_tag(good_tag, 16).value;
    t.id = id;
    return t;
}

static void headers(void) {
    records_aed h;
    h.tag = tag_of(258);
    h.previous_allocation_extent_location = 0x11223344;
    h.length_of_allocation_descriptors = 0x55667788;
    records_aed_bytes b = records_encode_aed(h);
    records_aed_answer r = records_parse_aed(b.bytes, 24);
    EXPECT(r.answer == RECORDS_DONE && r.value.tag.id == 258 && r.value.tag.location == 256);
    EXPECT(r.value.previous_allocation_extent_location == 0x11223344 && r.value.length_of_allocation_descriptors == 0x55667788);
    EXPECT(b.bytes[16] == 0x44 && b.bytes[20] == 0x88 && records_parse_aed(b.bytes, 23).answer == RECORDS_MALFORMED);
    h.tag = tag_of(257);
    EXPECT(records_parse_aed(records_encode_aed(h).bytes, 24).answer == RECORDS_MALFORMED);
}

static bool names(const char *recorded, size_t n, uint64_t answer, const char *name) {
    uint8_t out[8];
    memset(out, FREE, sizeof out);
    records_written w = records_decode_dstring((const uint8_t *)recorded, n, out, sizeof out);
    return w.answer == answer && w.length == strlen(name) && !memcmp(out, name, w.length) && is_all(out + w.length, sizeof out - w.length, FREE);
}

/* Cases 9 to 12 of the worked table; an id that has no name; and room that is a byte too small. */
static void dstrings(void) {
    uint8_t out[8], field[32];
    EXPECT(names("\x08\x41\x00\x42", 4, RECORDS_DONE, "A") && names("\x10\x00\x41\xd8\x00\x00\x42", 7, RECORDS_DONE, "AB"));
    EXPECT(names("\x10\x00\x41\x00", 4, RECORDS_MALFORMED, "") && names("\x08\xe9", 2, RECORDS_DONE, "\xc3\xa9"));
    EXPECT(names("\xfe", 1, RECORDS_DONE, "") && names("\x09\x41", 2, RECORDS_MALFORMED, ""));
    EXPECT(records_decode_dstring((const uint8_t *)"\x08\xe9", 2, out, 1).answer == RECORDS_NO_ROOM);
    EXPECT(records_decode_dstring(NULL, 0, NULL, 0).answer == RECORDS_DONE);
    memset(field, 0, sizeof field);
    memcpy(field, "\x08SHOW", 5);
    field[31] = 5;
    memset(out, FREE, sizeof out);
    records_written w = records_decode_dstring_field(field, 32, out, sizeof out);
    EXPECT(w.answer == RECORDS_DONE && w.length == 4 && !memcmp(out, "SHOW", 4) && is_all(out + 4, 4, FREE));
    EXPECT(records_decode_dstring_field(field, 32, out, 3).answer == RECORDS_NO_ROOM);
    field[31] = 32;
    EXPECT(records_decode_dstring_field(field, 32, out, sizeof out).answer == RECORDS_MALFORMED);
}

/* Descriptors by hand: zeros but for a tag and some fields, each a number of its own. */
static uint8_t whole[512];

static void begin(uint16_t id) {
    records_tag_bytes t = records_encode_tag(tag_of(id));
    memset(whole, 0, sizeof whole);
    memcpy(whole, t.bytes, 16);
}

static void file_records(void) {
    begin(261);
    put(whole + 16, 0x01020304, 4);
    put(whole + 20, 4, 2);
    put(whole + 27, 4, 1);
    put(whole + 34, 1, 2);
    put(whole + 56, 0x1122334455, 8);
    put(whole + 172, 40, 4);
    records_icb_tag_answer i = records_parse_icb_tag(whole + 16, 20);
    EXPECT(i.answer == RECORDS_DONE && i.value.prior_recorded_entries == 0x01020304 && i.value.strategy_type == 4 && i.value.file_type == 4);
    EXPECT(i.value.flags == 1 && records_parse_icb_tag(whole + 16, 19).answer == RECORDS_MALFORMED);
    records_file_entry_answer e = records_parse_file_entry(whole, 216);
    EXPECT(e.answer == RECORDS_DONE && e.value.information_length == 0x1122334455 && e.value.kind == 1 && !e.value.has_object_size);
    EXPECT(e.value.area_at == 176 && e.value.area_length == 40 && records_parse_file_entry(whole, 215).answer == RECORDS_MALFORMED);
    begin(257);
    put(whole + 18, 2, 1);
    put(whole + 19, 3, 1);
    put(whole + 20, 2048, 4);
    put(whole + 24, 77, 4);
    memcpy(whole + 38, "\x08" "10", 3);
    records_file_identifier_answer f = records_parse_file_identifier(whole, 41);
    EXPECT(f.answer == RECORDS_DONE && f.value.file_characteristics == 2 && f.value.icb.length == 2048 && f.value.icb.location.block == 77);
    EXPECT(f.value.name_at == 38 && f.value.name_length == 3 && f.value.name_size == 2 && f.value.total_size == 44);
    EXPECT(records_parse_file_identifier(whole, 40).answer == RECORDS_MALFORMED);
}

static void volume_records(void) {
    begin(2);
    put(whole + 16, 32768, 4);
    put(whole + 20, 32, 4);
    put(whole + 28, 64, 4);
    records_anchor_answer a = records_parse_anchor(whole, 512);
    EXPECT(a.answer == RECORDS_DONE && a.value.main_volume_descriptor_sequence.length == 32768);
    EXPECT(a.value.main_volume_descriptor_sequence.location == 32 && a.value.reserve_volume_descriptor_sequence.location == 64);
    EXPECT(records_parse_primary_volume(whole, 512).answer == RECORDS_MALFORMED);
    begin(1);
    put(whole + 16, 6, 4);
    memcpy(whole + 24, "\x08SHOW", 5);
    whole[55] = 5;
    records_primary_volume_answer v = records_parse_primary_volume(whole, 512);
    EXPECT(v.answer == RECORDS_DONE && v.value.volume_descriptor_sequence_number == 6 && !memcmp(v.value.volume_identifier, whole + 24, 32));
    begin(5);
    put(whole + 22, 9, 2);
    put(whole + 188, 288, 4);
    put(whole + 192, 33, 4);
    records_partition_answer p = records_parse_partition(whole, 512);
    EXPECT(p.answer == RECORDS_DONE && p.value.partition_number == 9 && p.value.partition_starting_location == 288 && p.value.partition_length == 33);
    begin(6);
    memcpy(whole + 84, "\x08LV", 3);
    whole[211] = 3;
    put(whole + 212, 2048, 4);
    put(whole + 252, 2, 4);
    put(whole + 264, 6, 4);
    put(whole + 268, 1, 4);
    put(whole + 440, 0x0601, 2);
    records_logical_volume_answer l = records_parse_logical_volume(whole, 512);
    EXPECT(l.answer == RECORDS_DONE && l.value.logical_block_size == 2048 && l.value.file_set_descriptor_location.location.block == 2);
    EXPECT(l.value.map_table_length == 6 && l.value.number_of_partition_maps == 1 && l.value.partition_maps[0] == 1 && l.value.partition_maps[1] == 6);
    begin(256);
    put(whole + 400, 2048, 4);
    put(whole + 404, 3, 4);
    records_file_set_answer s = records_parse_file_set(whole, 512);
    EXPECT(s.answer == RECORDS_DONE && s.value.root_directory_icb.length == 2048 && s.value.root_directory_icb.location.block == 3);
    EXPECT(records_parse_file_set(whole, 415).answer == RECORDS_MALFORMED);
}

/* Without a C++ library main is a function like any other. */
#ifdef __cplusplus
extern "C" int main(void);
#endif

int main(void) {
    tags();
    places();
    bodies();
    short_ads();
    extents();
    long_ads();
    ext_ads();
    headers();
    dstrings();
    file_records();
    volume_records();
    return 0;
}
