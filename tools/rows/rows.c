/* rows.c: the extents of files by each form that there is, for tools/rows.py: the row of records of `Volume::extents` and of `file_rows`
 * (lib.rattle), and the row of numbers (vault.h).
 *
 * Standard input has one image after the other: the length of a packed image (4 bytes), the image; how many queries (2), and each query: start (4),
 * partition (2), checked (4), maps (4), volumes (4 x 2), numbers (4 x 2), starts (4 x 4), ICB (16), slots (2). For each query a line: `same` or `OTHER`,
 * whether the three agree in their replies and in every slot, two behind those lent too; answer, count and length; the answered slots; `kept` or
 * `changed`, whether those behind are as they came. */
#include "vault.h"

vault_reply rows_extents(vault_volume volume, const uint8_t *image, size_t image_length, vault_long_ad icb, vault_extent *row, size_t row_slots);
vault_reply rows_file_rows(vault_mount mount, const uint8_t *image, size_t image_length, vault_long_ad icb, vault_extent *row, size_t row_slots);

/* What is used of the C library, declared here: the toolchain has its code for x86-64, and no headers. */
extern long read(int fd, void *to, size_t n);
extern long write(int fd, const void *from, size_t n);
extern void *memset(void *to, int byte, size_t n);
extern void *memcpy(void *to, const void *from, size_t n);
extern int memcmp(const void *one, const void *other, size_t n);
extern _Noreturn void exit(int status);

enum { SLOTS = 256, BEHIND = 2, FREE = 0xa5, QUERY = 64 };

static uint8_t all[4 << 20], image[4 << 20], said[4 << 20];
static size_t length, at, said_length;
static vault_extent records[SLOTS + BEHIND], rows[SLOTS + BEHIND], numbers[SLOTS + BEHIND];

static void say(const void *text, size_t n) {
    if (n > sizeof said - said_length) exit(3);
    memcpy(said + said_length, text, n);
    said_length += n;
}

static void say_number(uint64_t n) {
    char digits[20];
    size_t i = sizeof digits;
    do digits[--i] = (char)('0' + n % 10);
    while (n /= 10);
    say(" ", 1);
    say(digits + i, sizeof digits - i);
}

static const uint8_t *take(size_t n) {
    if (n > length - at) exit(4);
    at += n;
    return all + at - n;
}

static uint32_t number(const uint8_t *from, size_t n) { return n ? from[0] | number(from + 1, n - 1) << 8 : 0; }

static uint32_t take_number(size_t n) { return number(take(n), n); }

/* Lays the runs of a packed image where they stand, or zeros in their place. */
static void lay(const uint8_t *packed, bool zeros) {
    size_t from = 8;
    for (uint32_t runs = number(packed + 4, 4); runs; runs--) {
        uint32_t to = number(packed + from, 4), n = number(packed + from + 4, 4);
        if (to > sizeof image || n > sizeof image - to) exit(5);
        if (zeros)
            memset(image + to, 0, n);
        else
            memcpy(image + to, packed + from + 8, n);
        from += 8 + n;
    }
}

static vault_long_ad icb_of(const uint8_t *recorded) {
    uint32_t raw = number(recorded, 4);
    vault_long_ad icb = {raw & 0x3fffffff, (uint8_t)(raw >> 30), {number(recorded + 4, 4), (uint16_t)number(recorded + 8, 2)}, {0}};
    memcpy(icb.implementation_use, recorded + 10, 6);
    return icb;
}

static vault_mount mount_of(const uint8_t *query) {
    vault_mount mount = {.start = number(query, 4), .partition = (uint16_t)number(query + 4, 2), .checked = number(query + 6, 4), .maps = number(query + 10, 4)};
    for (size_t i = 0; i < 4; i++) {
        mount.volumes[i] = (uint16_t)number(query + 14 + 2 * i, 2);
        mount.numbers[i] = (uint16_t)number(query + 22 + 2 * i, 2);
        mount.starts[i] = number(query + 30 + 4 * i, 4);
    }
    return mount;
}

static bool is_same(vault_reply a, vault_reply b) { return a.answer == b.answer && a.count == b.count && a.length == b.length; }

static void ask(const uint8_t *query, size_t n) {
    vault_mount mount = mount_of(query);
    vault_long_ad icb = icb_of(query + 46);
    vault_volume volume = {mount, icb, {0}};
    size_t slots = number(query + 62, 2);
    if (slots > SLOTS) slots = SLOTS;
    memset(records, FREE, sizeof records);
    memset(rows, FREE, sizeof rows);
    memset(numbers, FREE, sizeof numbers);
    vault_reply r = rows_extents(volume, image, n, icb, records, slots);
    bool same = is_same(r, rows_file_rows(mount, image, n, icb, rows, slots)) && is_same(r, vault_extents(volume, image, n, icb, numbers, slots));
    same = same && !memcmp(records, rows, sizeof rows) && !memcmp(records, numbers, sizeof numbers);
    say(same ? "same" : "OTHER", same ? 4 : 5);
    say_number(r.answer);
    say_number(r.count);
    say_number(r.length);
    size_t i = 0;
    for (; i < r.length && i < slots; i++) {
        say_number(records[i].length);
        say_number(records[i].extent_type);
        say_number(records[i].block);
        say_number(records[i].partition);
    }
    bool kept = true;
    for (const uint8_t *byte = (const uint8_t *)(records + i); byte < (const uint8_t *)(records + SLOTS + BEHIND); byte++) kept = kept && *byte == FREE;
    say(kept ? " kept\n" : " changed\n", kept ? 6 : 9);
}

int main(void) {
    for (long got; length < sizeof all && (got = read(0, all + length, sizeof all - length)) > 0;) length += (size_t)got;
    while (at < length) {
        const uint8_t *packed = take(take_number(4));
        lay(packed, false);
        for (uint32_t queries = take_number(2); queries; queries--) ask(take(QUERY), number(packed, 4));
        lay(packed, true);
    }
    for (size_t i = 0; i < said_length;) {
        long put = write(1, said + i, said_length - i);
        if (put <= 0) return 6;
        i += (size_t)put;
    }
    return 0;
}
