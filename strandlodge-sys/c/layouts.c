/* Holds the headers to the sources: size and alignment of every struct, offset, size and type of every field, every number, and the size and sign of a choice.
 *
 * Made by tools/faces.py. Nothing here is run: it is compiled as C11 and as C++17 (tools/calls.py). */
#include "vault.h"
#include "records.h"

#ifdef __cplusplus
#include <type_traits>
#define HOLDS(fact) static_assert(fact, #fact)
#define ALIGN(name) alignof(name)
#define IS(name, field, pointer) std::is_same<decltype(&((name *)0)->field), pointer>::value
#else
#define HOLDS(fact) _Static_assert(fact, #fact)
#define ALIGN(name) _Alignof(name)
#define IS(name, field, pointer) _Generic(&((name *)0)->field, pointer: 1, default: 0)
#endif
#define FIELD(name, field, at, size, pointer) \
    HOLDS(offsetof(name, field) == at && sizeof(((name *)0)->field) == size && IS(name, field, pointer))


HOLDS(VAULT_DONE == 0);
HOLDS(VAULT_IO == 1);
HOLDS(VAULT_MALFORMED == 2);
HOLDS(VAULT_NOT_BLURAY == 3);
HOLDS(VAULT_UNSUPPORTED == 4);
HOLDS(VAULT_NO_ROOM == 5);
HOLDS(VAULT_NO_WORK == 6);
HOLDS(VAULT_NO_SLOT == 7);
HOLDS(VAULT_AMBIGUOUS == 9);
HOLDS(VAULT_BAD_CRC == 10);
HOLDS(VAULT_TOO_DEEP == 11);
HOLDS(VAULT_TOO_MANY == 12);
HOLDS(VAULT_BAD_NAME == 13);
HOLDS(VAULT_BAD_FILES == 14);
HOLDS(VAULT_BAD_SHELF == 15);
HOLDS(VAULT_OVER_BUDGET == 16);
HOLDS(VAULT_CASE_IGNORED == 0);
HOLDS(VAULT_AS_WRITTEN == 1);
HOLDS(VAULT_UNAMBIGUOUS == 2);
HOLDS(sizeof(vault_matching) == 4 && (vault_matching)-1 > 0);
HOLDS(VAULT_CHECKED == 1);
HOLDS(VAULT_MAPS == 2);
HOLDS(VAULT_HIGHEST == 4);
HOLDS(VAULT_UNLIMITED == UINT64_C(18446744073709551615));
HOLDS(VAULT_SECTOR_SIZE == 2048);
HOLDS(VAULT_VERSION == 12);
HOLDS(VAULT_FIGURES == 80);

HOLDS(sizeof(vault_mount) == 48 && ALIGN(vault_mount) == 4);
FIELD(vault_mount, start, 0, 4, uint32_t *);
FIELD(vault_mount, partition, 4, 2, uint16_t *);
FIELD(vault_mount, checked, 8, 4, uint32_t *);
FIELD(vault_mount, maps, 12, 4, uint32_t *);
FIELD(vault_mount, volumes, 16, 8, uint16_t (*)[4]);
FIELD(vault_mount, numbers, 24, 8, uint16_t (*)[4]);
FIELD(vault_mount, starts, 32, 16, uint32_t (*)[4]);

HOLDS(sizeof(vault_lb_addr) == 8 && ALIGN(vault_lb_addr) == 4);
FIELD(vault_lb_addr, block, 0, 4, uint32_t *);
FIELD(vault_lb_addr, partition_ref, 4, 2, uint16_t *);

HOLDS(sizeof(vault_long_ad) == 24 && ALIGN(vault_long_ad) == 4);
FIELD(vault_long_ad, length, 0, 4, uint32_t *);
FIELD(vault_long_ad, extent_type, 4, 1, uint8_t *);
FIELD(vault_long_ad, location, 8, 8, vault_lb_addr *);
FIELD(vault_long_ad, implementation_use, 16, 6, uint8_t (*)[6]);

HOLDS(sizeof(vault_volume) == 104 && ALIGN(vault_volume) == 4);
FIELD(vault_volume, mount, 0, 48, vault_mount *);
FIELD(vault_volume, root, 48, 24, vault_long_ad *);
FIELD(vault_volume, label, 72, 32, uint8_t (*)[32]);

HOLDS(sizeof(vault_opened) == 120 && ALIGN(vault_opened) == 8);
FIELD(vault_opened, answer, 0, 8, uint64_t *);
FIELD(vault_opened, count, 8, 8, uint64_t *);
FIELD(vault_opened, volume, 16, 104, vault_volume *);

HOLDS(sizeof(vault_reply) == 24 && ALIGN(vault_reply) == 8);
FIELD(vault_reply, answer, 0, 8, uint64_t *);
FIELD(vault_reply, count, 8, 8, uint64_t *);
FIELD(vault_reply, length, 16, 8, uint64_t *);

HOLDS(sizeof(vault_found) == 40 && ALIGN(vault_found) == 8);
FIELD(vault_found, answer, 0, 8, uint64_t *);
FIELD(vault_found, count, 8, 8, uint64_t *);
FIELD(vault_found, icb, 16, 24, vault_long_ad *);

HOLDS(sizeof(vault_extent) == 16 && ALIGN(vault_extent) == 4);
FIELD(vault_extent, length, 0, 4, uint32_t *);
FIELD(vault_extent, extent_type, 4, 4, uint32_t *);
FIELD(vault_extent, block, 8, 4, uint32_t *);
FIELD(vault_extent, partition, 12, 4, uint32_t *);

HOLDS(sizeof(vault_run) == 16 && ALIGN(vault_run) == 8);
FIELD(vault_run, at, 0, 8, uint64_t *);
FIELD(vault_run, length, 8, 8, uint64_t *);

HOLDS(sizeof(vault_write_reply) == 16 && ALIGN(vault_write_reply) == 8);
FIELD(vault_write_reply, answer, 0, 8, uint64_t *);
FIELD(vault_write_reply, sectors, 8, 8, uint64_t *);

HOLDS(sizeof(vault_kept) == 124 && ALIGN(vault_kept) == 4);
FIELD(vault_kept, has_primary, 0, 1, bool *);
FIELD(vault_kept, primary_sequence, 4, 4, uint32_t *);
FIELD(vault_kept, label, 8, 32, uint8_t (*)[32]);
FIELD(vault_kept, has_partition, 40, 1, bool *);
FIELD(vault_kept, partition_sequence, 44, 4, uint32_t *);
FIELD(vault_kept, partition_number, 48, 2, uint16_t *);
FIELD(vault_kept, partition_start, 52, 4, uint32_t *);
FIELD(vault_kept, has_logical, 56, 1, bool *);
FIELD(vault_kept, logical_sequence, 60, 4, uint32_t *);
FIELD(vault_kept, block_size, 64, 4, uint32_t *);
FIELD(vault_kept, file_set, 68, 24, vault_long_ad *);
FIELD(vault_kept, map_table_length, 92, 4, uint32_t *);
FIELD(vault_kept, map_count, 96, 4, uint32_t *);
FIELD(vault_kept, maps, 100, 24, uint8_t (*)[24]);

HOLDS(sizeof(vault_opening) == 264 && ALIGN(vault_opening) == 8);
FIELD(vault_opening, phase, 0, 1, uint8_t *);
FIELD(vault_opening, at, 8, 8, uint64_t *);
FIELD(vault_opening, left, 16, 4, uint32_t *);
FIELD(vault_opening, kept, 20, 124, vault_kept *);
FIELD(vault_opening, opened, 144, 120, vault_opened *);

HOLDS(sizeof(vault_scan) == 56 && ALIGN(vault_scan) == 8);
FIELD(vault_scan, listed, 0, 8, size_t *);
FIELD(vault_scan, full, 8, 1, bool *);
FIELD(vault_scan, closed, 9, 1, uint8_t *);
FIELD(vault_scan, carried, 16, 8, size_t *);
FIELD(vault_scan, carry, 24, 20, uint8_t (*)[20]);
FIELD(vault_scan, next_length, 44, 4, uint32_t *);
FIELD(vault_scan, next_block, 48, 4, uint32_t *);
FIELD(vault_scan, next_reference, 52, 4, uint32_t *);

HOLDS(sizeof(vault_body) == 16 && ALIGN(vault_body) == 4);
FIELD(vault_body, tagged, 0, 1, bool *);
FIELD(vault_body, headed, 1, 1, bool *);
FIELD(vault_body, crc, 2, 2, uint16_t *);
FIELD(vault_body, summed, 4, 2, uint16_t *);
FIELD(vault_body, body_left, 8, 4, uint32_t *);
FIELD(vault_body, area_left, 12, 4, uint32_t *);

HOLDS(sizeof(vault_reading) == 192 && ALIGN(vault_reading) == 8);
FIELD(vault_reading, phase, 0, 1, uint8_t *);
FIELD(vault_reading, at, 8, 8, uint64_t *);
FIELD(vault_reading, left, 16, 4, uint32_t *);
FIELD(vault_reading, mount, 20, 48, vault_mount *);
FIELD(vault_reading, kind, 68, 1, uint8_t *);
FIELD(vault_reading, hops, 69, 1, uint8_t *);
FIELD(vault_reading, missing, 72, 8, uint64_t *);
FIELD(vault_reading, size, 80, 4, uint32_t *);
FIELD(vault_reading, next, 88, 8, size_t *);
FIELD(vault_reading, scan, 96, 56, vault_scan *);
FIELD(vault_reading, body, 152, 16, vault_body *);
FIELD(vault_reading, answer, 168, 8, uint64_t *);
FIELD(vault_reading, count, 176, 8, uint64_t *);
FIELD(vault_reading, length, 184, 8, size_t *);

HOLDS(sizeof(vault_named) == 40 && ALIGN(vault_named) == 8);
FIELD(vault_named, answer, 0, 8, uint64_t *);
FIELD(vault_named, found, 8, 1, bool *);
FIELD(vault_named, icb, 12, 24, vault_long_ad *);
FIELD(vault_named, directory, 36, 1, bool *);

HOLDS(sizeof(vault_component) == 16 && ALIGN(vault_component) == 8);
FIELD(vault_component, at, 0, 8, size_t *);
FIELD(vault_component, length, 8, 8, size_t *);

HOLDS(sizeof(vault_figure) == 16 && ALIGN(vault_figure) == 8);
FIELD(vault_figure, number, 0, 8, uint64_t *);
FIELD(vault_figure, over, 8, 8, uint64_t *);

HOLDS(sizeof(vault_figures) == 640 && ALIGN(vault_figures) == 8);
FIELD(vault_figures, files, 0, 16, vault_figure *);
FIELD(vault_figures, directories, 16, 16, vault_figure *);
FIELD(vault_figures, bytes, 32, 16, vault_figure *);
FIELD(vault_figures, extents, 48, 16, vault_figure *);
FIELD(vault_figures, sectors, 64, 16, vault_figure *);
FIELD(vault_figures, files_by_answer, 80, 272, vault_figure (*)[17]);
FIELD(vault_figures, images_by_answer, 352, 272, vault_figure (*)[17]);
FIELD(vault_figures, chain, 624, 16, vault_figure *);

HOLDS(RECORDS_DONE == 0);
HOLDS(RECORDS_MALFORMED == 2);
HOLDS(RECORDS_NO_ROOM == 5);

HOLDS(sizeof(records_extent_ad) == 8 && ALIGN(records_extent_ad) == 4);
FIELD(records_extent_ad, length, 0, 4, uint32_t *);
FIELD(records_extent_ad, location, 4, 4, uint32_t *);

HOLDS(sizeof(records_short_ad) == 12 && ALIGN(records_short_ad) == 4);
FIELD(records_short_ad, length, 0, 4, uint32_t *);
FIELD(records_short_ad, extent_type, 4, 1, uint8_t *);
FIELD(records_short_ad, block_location, 8, 4, uint32_t *);

HOLDS(sizeof(records_lb_addr) == 8 && ALIGN(records_lb_addr) == 4);
FIELD(records_lb_addr, block, 0, 4, uint32_t *);
FIELD(records_lb_addr, partition_ref, 4, 2, uint16_t *);

HOLDS(sizeof(records_long_ad) == 24 && ALIGN(records_long_ad) == 4);
FIELD(records_long_ad, length, 0, 4, uint32_t *);
FIELD(records_long_ad, extent_type, 4, 1, uint8_t *);
FIELD(records_long_ad, location, 8, 8, records_lb_addr *);
FIELD(records_long_ad, implementation_use, 16, 6, uint8_t (*)[6]);

HOLDS(sizeof(records_ext_ad) == 28 && ALIGN(records_ext_ad) == 4);
FIELD(records_ext_ad, length, 0, 4, uint32_t *);
FIELD(records_ext_ad, extent_type, 4, 1, uint8_t *);
FIELD(records_ext_ad, recorded_length, 8, 4, uint32_t *);
FIELD(records_ext_ad, information_length, 12, 4, uint32_t *);
FIELD(records_ext_ad, location, 16, 8, records_lb_addr *);
FIELD(records_ext_ad, implementation_use, 24, 2, uint8_t (*)[2]);

HOLDS(sizeof(records_extent_ad_answer) == 16 && ALIGN(records_extent_ad_answer) == 8);
FIELD(records_extent_ad_answer, answer, 0, 8, uint64_t *);
FIELD(records_extent_ad_answer, value, 8, 8, records_extent_ad *);

HOLDS(sizeof(records_short_ad_answer) == 24 && ALIGN(records_short_ad_answer) == 8);
FIELD(records_short_ad_answer, answer, 0, 8, uint64_t *);
FIELD(records_short_ad_answer, value, 8, 12, records_short_ad *);

HOLDS(sizeof(records_lb_addr_answer) == 16 && ALIGN(records_lb_addr_answer) == 8);
FIELD(records_lb_addr_answer, answer, 0, 8, uint64_t *);
FIELD(records_lb_addr_answer, value, 8, 8, records_lb_addr *);

HOLDS(sizeof(records_long_ad_answer) == 32 && ALIGN(records_long_ad_answer) == 8);
FIELD(records_long_ad_answer, answer, 0, 8, uint64_t *);
FIELD(records_long_ad_answer, value, 8, 24, records_long_ad *);

HOLDS(sizeof(records_ext_ad_answer) == 40 && ALIGN(records_ext_ad_answer) == 8);
FIELD(records_ext_ad_answer, answer, 0, 8, uint64_t *);
FIELD(records_ext_ad_answer, value, 8, 28, records_ext_ad *);

HOLDS(sizeof(records_extent_ad_bytes) == 8 && ALIGN(records_extent_ad_bytes) == 1);
FIELD(records_extent_ad_bytes, bytes, 0, 8, uint8_t (*)[8]);

HOLDS(sizeof(records_short_ad_bytes) == 8 && ALIGN(records_short_ad_bytes) == 1);
FIELD(records_short_ad_bytes, bytes, 0, 8, uint8_t (*)[8]);

HOLDS(sizeof(records_lb_addr_bytes) == 6 && ALIGN(records_lb_addr_bytes) == 1);
FIELD(records_lb_addr_bytes, bytes, 0, 6, uint8_t (*)[6]);

HOLDS(sizeof(records_long_ad_bytes) == 16 && ALIGN(records_long_ad_bytes) == 1);
FIELD(records_long_ad_bytes, bytes, 0, 16, uint8_t (*)[16]);

HOLDS(sizeof(records_ext_ad_bytes) == 20 && ALIGN(records_ext_ad_bytes) == 1);
FIELD(records_ext_ad_bytes, bytes, 0, 20, uint8_t (*)[20]);

HOLDS(sizeof(records_written) == 16 && ALIGN(records_written) == 8);
FIELD(records_written, answer, 0, 8, uint64_t *);
FIELD(records_written, length, 8, 8, uint64_t *);

HOLDS(sizeof(records_tag) == 16 && ALIGN(records_tag) == 4);
FIELD(records_tag, id, 0, 2, uint16_t *);
FIELD(records_tag, descriptor_version, 2, 2, uint16_t *);
FIELD(records_tag, serial_number, 4, 2, uint16_t *);
FIELD(records_tag, crc, 6, 2, uint16_t *);
FIELD(records_tag, crc_length, 8, 2, uint16_t *);
FIELD(records_tag, location, 12, 4, uint32_t *);

HOLDS(sizeof(records_aed) == 24 && ALIGN(records_aed) == 4);
FIELD(records_aed, tag, 0, 16, records_tag *);
FIELD(records_aed, previous_allocation_extent_location, 16, 4, uint32_t *);
FIELD(records_aed, length_of_allocation_descriptors, 20, 4, uint32_t *);

HOLDS(sizeof(records_tag_answer) == 24 && ALIGN(records_tag_answer) == 8);
FIELD(records_tag_answer, answer, 0, 8, uint64_t *);
FIELD(records_tag_answer, value, 8, 16, records_tag *);

HOLDS(sizeof(records_aed_answer) == 32 && ALIGN(records_aed_answer) == 8);
FIELD(records_aed_answer, answer, 0, 8, uint64_t *);
FIELD(records_aed_answer, value, 8, 24, records_aed *);

HOLDS(sizeof(records_tag_bytes) == 16 && ALIGN(records_tag_bytes) == 1);
FIELD(records_tag_bytes, bytes, 0, 16, uint8_t (*)[16]);

HOLDS(sizeof(records_aed_bytes) == 24 && ALIGN(records_aed_bytes) == 1);
FIELD(records_aed_bytes, bytes, 0, 24, uint8_t (*)[24]);

HOLDS(sizeof(records_icb_tag) == 24 && ALIGN(records_icb_tag) == 4);
FIELD(records_icb_tag, prior_recorded_entries, 0, 4, uint32_t *);
FIELD(records_icb_tag, strategy_type, 4, 2, uint16_t *);
FIELD(records_icb_tag, strategy_parameter, 6, 2, uint16_t *);
FIELD(records_icb_tag, max_entries, 8, 2, uint16_t *);
FIELD(records_icb_tag, file_type, 10, 1, uint8_t *);
FIELD(records_icb_tag, parent_icb, 12, 8, records_lb_addr *);
FIELD(records_icb_tag, flags, 20, 2, uint16_t *);

HOLDS(sizeof(records_file_entry) == 128 && ALIGN(records_file_entry) == 8);
FIELD(records_file_entry, tag, 0, 16, records_tag *);
FIELD(records_file_entry, icb_tag, 16, 24, records_icb_tag *);
FIELD(records_file_entry, uid, 40, 4, uint32_t *);
FIELD(records_file_entry, gid, 44, 4, uint32_t *);
FIELD(records_file_entry, permissions, 48, 4, uint32_t *);
FIELD(records_file_entry, file_link_count, 52, 2, uint16_t *);
FIELD(records_file_entry, record_format, 54, 1, uint8_t *);
FIELD(records_file_entry, record_display_attributes, 55, 1, uint8_t *);
FIELD(records_file_entry, record_length, 56, 4, uint32_t *);
FIELD(records_file_entry, information_length, 64, 8, uint64_t *);
FIELD(records_file_entry, logical_blocks_recorded, 72, 8, uint64_t *);
FIELD(records_file_entry, has_object_size, 80, 1, bool *);
FIELD(records_file_entry, object_size, 88, 8, uint64_t *);
FIELD(records_file_entry, length_of_extended_attributes, 96, 4, uint32_t *);
FIELD(records_file_entry, length_of_allocation_descriptors, 100, 4, uint32_t *);
FIELD(records_file_entry, kind, 104, 1, uint8_t *);
FIELD(records_file_entry, area_at, 112, 8, size_t *);
FIELD(records_file_entry, area_length, 120, 8, size_t *);

HOLDS(sizeof(records_file_identifier) == 80 && ALIGN(records_file_identifier) == 8);
FIELD(records_file_identifier, tag, 0, 16, records_tag *);
FIELD(records_file_identifier, file_version_number, 16, 2, uint16_t *);
FIELD(records_file_identifier, file_characteristics, 18, 1, uint8_t *);
FIELD(records_file_identifier, icb, 20, 24, records_long_ad *);
FIELD(records_file_identifier, name_at, 48, 8, size_t *);
FIELD(records_file_identifier, name_length, 56, 8, size_t *);
FIELD(records_file_identifier, name_size, 64, 8, size_t *);
FIELD(records_file_identifier, total_size, 72, 8, size_t *);

HOLDS(sizeof(records_icb_tag_answer) == 32 && ALIGN(records_icb_tag_answer) == 8);
FIELD(records_icb_tag_answer, answer, 0, 8, uint64_t *);
FIELD(records_icb_tag_answer, value, 8, 24, records_icb_tag *);

HOLDS(sizeof(records_file_entry_answer) == 136 && ALIGN(records_file_entry_answer) == 8);
FIELD(records_file_entry_answer, answer, 0, 8, uint64_t *);
FIELD(records_file_entry_answer, value, 8, 128, records_file_entry *);

HOLDS(sizeof(records_file_identifier_answer) == 88 && ALIGN(records_file_identifier_answer) == 8);
FIELD(records_file_identifier_answer, answer, 0, 8, uint64_t *);
FIELD(records_file_identifier_answer, value, 8, 80, records_file_identifier *);

HOLDS(sizeof(records_anchor) == 32 && ALIGN(records_anchor) == 4);
FIELD(records_anchor, tag, 0, 16, records_tag *);
FIELD(records_anchor, main_volume_descriptor_sequence, 16, 8, records_extent_ad *);
FIELD(records_anchor, reserve_volume_descriptor_sequence, 24, 8, records_extent_ad *);

HOLDS(sizeof(records_primary_volume) == 56 && ALIGN(records_primary_volume) == 4);
FIELD(records_primary_volume, tag, 0, 16, records_tag *);
FIELD(records_primary_volume, volume_descriptor_sequence_number, 16, 4, uint32_t *);
FIELD(records_primary_volume, primary_volume_descriptor_number, 20, 4, uint32_t *);
FIELD(records_primary_volume, volume_identifier, 24, 32, uint8_t (*)[32]);

HOLDS(sizeof(records_partition) == 32 && ALIGN(records_partition) == 4);
FIELD(records_partition, tag, 0, 16, records_tag *);
FIELD(records_partition, volume_descriptor_sequence_number, 16, 4, uint32_t *);
FIELD(records_partition, partition_flags, 20, 2, uint16_t *);
FIELD(records_partition, partition_number, 22, 2, uint16_t *);
FIELD(records_partition, partition_starting_location, 24, 4, uint32_t *);
FIELD(records_partition, partition_length, 28, 4, uint32_t *);

HOLDS(sizeof(records_logical_volume) == 208 && ALIGN(records_logical_volume) == 4);
FIELD(records_logical_volume, tag, 0, 16, records_tag *);
FIELD(records_logical_volume, volume_descriptor_sequence_number, 16, 4, uint32_t *);
FIELD(records_logical_volume, logical_volume_identifier, 20, 128, uint8_t (*)[128]);
FIELD(records_logical_volume, logical_block_size, 148, 4, uint32_t *);
FIELD(records_logical_volume, file_set_descriptor_location, 152, 24, records_long_ad *);
FIELD(records_logical_volume, map_table_length, 176, 4, uint32_t *);
FIELD(records_logical_volume, number_of_partition_maps, 180, 4, uint32_t *);
FIELD(records_logical_volume, partition_maps, 184, 24, uint8_t (*)[24]);

HOLDS(sizeof(records_file_set) == 40 && ALIGN(records_file_set) == 4);
FIELD(records_file_set, tag, 0, 16, records_tag *);
FIELD(records_file_set, root_directory_icb, 16, 24, records_long_ad *);

HOLDS(sizeof(records_anchor_answer) == 40 && ALIGN(records_anchor_answer) == 8);
FIELD(records_anchor_answer, answer, 0, 8, uint64_t *);
FIELD(records_anchor_answer, value, 8, 32, records_anchor *);

HOLDS(sizeof(records_primary_volume_answer) == 64 && ALIGN(records_primary_volume_answer) == 8);
FIELD(records_primary_volume_answer, answer, 0, 8, uint64_t *);
FIELD(records_primary_volume_answer, value, 8, 56, records_primary_volume *);

HOLDS(sizeof(records_partition_answer) == 40 && ALIGN(records_partition_answer) == 8);
FIELD(records_partition_answer, answer, 0, 8, uint64_t *);
FIELD(records_partition_answer, value, 8, 32, records_partition *);

HOLDS(sizeof(records_logical_volume_answer) == 216 && ALIGN(records_logical_volume_answer) == 8);
FIELD(records_logical_volume_answer, answer, 0, 8, uint64_t *);
FIELD(records_logical_volume_answer, value, 8, 208, records_logical_volume *);

HOLDS(sizeof(records_file_set_answer) == 48 && ALIGN(records_file_set_answer) == 8);
FIELD(records_file_set_answer, answer, 0, 8, uint64_t *);
FIELD(records_file_set_answer, value, 8, 40, records_file_set *);
