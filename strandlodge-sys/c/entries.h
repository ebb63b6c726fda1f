/* An entry of a listing. Its name points into the listing itself, and is not terminated by a zero. */
typedef struct {
    const uint8_t *name; /* UTF-8. */
    size_t name_length;
    vault_long_ad icb; /* The ICB of the file or directory. */
    uint8_t level; /* In a show, the number of names in its path; 0 in a listing. */
    bool directory;
} vault_entry;

/* Takes the record at `*at` from a listing (`levels` false: vault_list, vault_list_bytes) or a show (true: vault_show)
 * of `length` bytes, and moves `*at` past it; start with 0. Returns false if there is no complete record, and then
 * leaves `*at` and `*entry` unchanged. It stays within the `length` bytes, whatever they are.
 *
 * A walk that lists every directory it finds never ends if a directory contains itself or one above it: limit its depth,
 * or remember the blocks of the directories that it has listed. vault_show limits the depth to 16. */
static inline bool vault_next_record(const uint8_t *listing, size_t length, bool levels, size_t *at,
                                     vault_entry *entry) {
    size_t head = levels ? 22 : 21; /* The mark, the level, the kind, the ICB and the name's length. */
    if (*at > length || length - *at < head) return false;
    const uint8_t *r = listing + *at, *icb = r + head - 18;
    size_t name = (size_t)(r[head - 2] | r[head - 1] << 8);
    if (r[0] != 0x44 || r[1] != 0x45 || length - *at - head < name) return false;
    uint32_t raw = icb[0] | (uint32_t)icb[1] << 8 | (uint32_t)icb[2] << 16 | (uint32_t)icb[3] << 24;
    entry->name = r + head;
    entry->name_length = name;
    entry->icb.length = raw & 0x3fffffff;
    entry->icb.extent_type = (uint8_t)(raw >> 30);
    entry->icb.location.block = icb[4] | (uint32_t)icb[5] << 8 | (uint32_t)icb[6] << 16 | (uint32_t)icb[7] << 24;
    entry->icb.location.partition_ref = (uint16_t)(icb[8] | icb[9] << 8);
    for (int i = 0; i < 6; i++) entry->icb.implementation_use[i] = icb[10 + i];
    entry->level = levels ? r[2] : 0;
    entry->directory = r[head - 19] == 1;
    *at += head + name;
    return true;
}
