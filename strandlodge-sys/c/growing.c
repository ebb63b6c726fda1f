/* growing.c: reads a sector at a time in which row and output grow from nothing, held to the one call.
 *
 * Images come on standard input as tools/drive_images.py writes them. Each file is read by vault_read; then by steps with slots and room for all at once;
 * then by steps in three ways, so often as the first word says, each time at random:
 *
 *     ample    before a step there are 256 free slots and 2,048 free bytes at least, which is enough for any sector
 *     just     there are as many free slots and bytes as the sector brings, or a few more
 *     scant    there may be too few
 *
 * Between steps row and output move, new slots hold anything, and bytes are taken away from the output's front. What is owed: where memory sufficed in
 * time, the sectors, the answer, the count and the bytes are those of the call. Where a byte found no room at its step the answer is VAULT_NO_ROOM, with
 * those that did arrived; where an extent found no slot it is VAULT_NO_SLOT once its area has come whole, unless that ends in a refusal.
 *
 * With the word `whole` it writes what vault_read gives for the last file to standard output. Ends with 0, or says what isn't so. */
#include "expect.h"
#include "vault.h"

enum { SECTOR = 2048, DESCRIPTORS = 256, FREE = 0xa5, QUERY = 50, STEPS = 1 << 14, MOST = 1 << 23 };
enum { AMPLE, JUST, SCANT, WAYS };

static uint8_t *image;
static size_t image_length;
static vault_volume volume;
static vault_long_ad icb;

static uint64_t seed = 1;

/* A number below n. */
static size_t any(size_t n) {
    seed = seed * 6364136223846793005u + 1442695040888963407u;
    return (size_t)(seed >> 33) % n;
}

static uint64_t number(const uint8_t *at, size_t n) {
    uint64_t sum = 0;
    while (n--) sum = sum << 8 | at[n];
    return sum;
}

static uint8_t *sector_at(uint64_t at) { return at < image_length / SECTOR ? image + at * SECTOR : NULL; }

static vault_reading step(vault_reading r, vault_extent *row, size_t slots, uint8_t *out, size_t room) {
    const uint8_t *sector = sector_at(vault_reading_wants(r));
    return vault_reading_step(r, sector, sector ? SECTOR : 0, row, slots, out, room);
}

/* The read with all memory at once: what each step wanted and brought. */
static struct {
    uint64_t answer, wanted[STEPS];
    size_t steps, brought[STEPS], named[STEPS];
    bool goes_on[STEPS]; /* Whether the area is accepted by then, and the read goes on. */
    size_t length;
    uint8_t bytes[MOST];
} once;

static uint8_t called[MOST];
static vault_reply call;
static vault_extent all[STEPS];

static void read_once(void) {
    vault_reading r = vault_reading_start(volume, icb, all, STEPS);
    size_t i = 0;
    for (; vault_reading_is_wanting(r); i++) {
        EXPECT(i < STEPS);
        once.wanted[i] = vault_reading_wants(r);
        vault_reading x = step(r, all, STEPS, once.bytes, MOST);
        once.brought[i] = x.length - r.length;
        once.named[i] = r.phase < 3 ? x.scan.listed - r.scan.listed : 0;
        once.goes_on[i] = vault_reading_is_wanting(x) && x.phase != 2;
        r = x;
    }
    once.steps = i;
    once.answer = r.answer;
    once.length = r.length;
    call = vault_read(volume, image, image_length, icb, called, MOST);
    EXPECT(call.answer == r.answer && call.count == r.count && r.count == i);
    EXPECT(call.answer != VAULT_DONE || (call.length == r.length && !memcmp(called, once.bytes, r.length)));
}

/* What grows. */
static vault_extent *row;
static uint8_t *out;
static size_t slots, room, taken;

static void *moved(void *from, size_t n, size_t to, uint8_t byte) {
    uint8_t *other = malloc(to + 1);
    EXPECT(other && n <= to);
    memset(other, byte, to);
    if (n) memcpy(other, from, n);
    free(from);
    return other;
}

static void lengthen(size_t more_slots, size_t more_room) {
    row = (vault_extent *)moved(row, slots * sizeof *row, (slots + more_slots) * sizeof *row, (uint8_t)any(256));
    out = (uint8_t *)moved(out, room, room + more_room, FREE);
    slots += more_slots;
    room += more_room;
}

/* Takes n bytes away from the output's front; those behind move up. */
static size_t take(size_t length, size_t n) {
    EXPECT(taken + n <= once.length && !memcmp(out, once.bytes + taken, n));
    taken += n;
    if (n) memmove(out, out + n, length - n);
    if (n) memset(out + length - n, FREE, n);
    return length - n;
}

/* How many more are needed, beside those that are free. */
static size_t lacking(size_t needed, size_t free) { return free < needed ? needed - free : 0; }

/* Makes room before step i as this way has it. */
static void make_room(int way, const vault_reading *r, size_t i) {
    size_t extra = any(4) ? 0 : any(40), need_slots = once.named[i], need_room = once.brought[i];
    if (way == AMPLE) need_slots = r->phase < 3 ? DESCRIPTORS : 0, need_room = SECTOR;
    if (way == SCANT) need_slots = any(need_slots + 2), need_room = any(need_room + 2);
    lengthen(lacking(need_slots, slots - r->scan.listed) + extra, lacking(need_room, room - r->length) + any(2) * extra);
}

static bool is_free(const uint8_t *from, size_t n) {
    while (n--)
        if (from[n] != FREE) return false;
    return true;
}

static bool is_zero(void) {
    for (size_t i = 0; i < slots; i++)
        if (row[i].length | row[i].extent_type | row[i].block | row[i].partition) return false;
    return true;
}

/* Whether the read has ended rightly at step i, at which it had so much room; `lost`: an extent of the area had no slot. */
static void ended(const vault_reading *r, size_t i, size_t free_room, bool lost) {
    bool last = i + 1 == once.steps;
    EXPECT(is_zero() && r->count == i + 1);
    if (free_room < once.brought[i]) {
        EXPECT(r->answer == VAULT_NO_ROOM && r->length == room);
    } else if (lost && !(last && once.answer != VAULT_DONE && r->answer == once.answer)) {
        EXPECT(r->answer == VAULT_NO_SLOT && (last || once.goes_on[i]));
    } else {
        EXPECT(last && r->answer == once.answer);
    }
}

/* A read in one of the ways. Whether memory sufficed. */
static bool grow(int way) {
    size_t i = 0;
    bool lost = false, sufficed = true;
    slots = room = taken = 0;
    vault_reading r = vault_reading_start(volume, icb, NULL, 0);
    for (; vault_reading_is_wanting(r); i++) {
        EXPECT(i < once.steps && vault_reading_wants(r) == once.wanted[i]);
        if (any(2)) r.length = take(r.length, any(2) ? r.length : any(r.length + 1));
        make_room(way, &r, i);
        size_t free_room = room - r.length;
        lost = lost || slots - r.scan.listed < once.named[i];
        sufficed = sufficed && !lost && once.brought[i] <= free_room;
        r = step(r, row, slots, out, room);
        EXPECT(is_free(out + r.length, room - r.length));
        if (!vault_reading_is_wanting(r)) ended(&r, i, free_room, lost);
        else EXPECT(i + 1 < once.steps && once.brought[i] <= free_room && !(lost && once.goes_on[i]));
    }
    EXPECT(r.count == i && (i || r.answer == once.answer));
    EXPECT(!sufficed || (i == once.steps && r.answer == call.answer && r.count == call.count && taken + r.length == once.length));
    take(r.length, r.length);
    lengthen(0, 0);
    free(row);
    free(out);
    row = NULL;
    out = NULL;
    return sufficed;
}

/* ---- the images */

static uint8_t *input;
static size_t input_length, at;

static const uint8_t *next(size_t n) {
    EXPECT(n <= input_length - at);
    at += n;
    return input + at - n;
}

static void load(void) {
    size_t size = 1 << 24;
    input = malloc(size);
    EXPECT(input);
    for (long got; (got = read(0, input + input_length, size - input_length)) > 0;) input_length += (size_t)got;
    EXPECT(input_length < size);
}

static void unpack(void) {
    next(4);
    image_length = number(next(4), 4);
    image = malloc(image_length + 1);
    EXPECT(image);
    memset(image, 0, image_length);
    for (uint64_t runs = number(next(4), 4); runs; runs--) {
        size_t to = number(next(4), 4), n = number(next(4), 4);
        EXPECT(to <= image_length && n <= image_length - to);
        memcpy(image + to, next(n), n);
    }
}

static void query(void) {
    const uint8_t *q = next(QUERY);
    memset(&volume, 0, sizeof volume);
    volume.mount.start = (uint32_t)number(q, 4);
    volume.mount.partition = (uint16_t)number(q + 4, 2);
    volume.mount.checked = (uint32_t)number(q + 6, 4);
    volume.mount.maps = (uint32_t)number(q + 10, 4);
    for (size_t i = 0; i < 4; i++) volume.mount.starts[i] = (uint32_t)number(q + 14 + 4 * i, 4);
    icb.length = (uint32_t)number(q + 30, 4) & 0x3fffffff;
    icb.extent_type = q[33] >> 6;
    icb.location.block = (uint32_t)number(q + 34, 4);
    icb.location.partition_ref = (uint16_t)number(q + 38, 2);
    read_once();
}

static void tell(const char *text, size_t n) {
    char digits[21];
    size_t i = sizeof digits;
    digits[--i] = 0;
    do digits[--i] = (char)('0' + n % 10);
    while (n /= 10);
    say(1, digits + i);
    say(1, text);
}

int main(int words, char **word) {
    size_t times = 0, files = 0, reads = 0, enough = 0;
    bool whole = words > 1 && strstr(word[1], "whole");
    for (const char *c = words > 1 && !whole ? word[1] : ""; *c; c++) times = 10 * times + (size_t)(*c - '0');
    load();
    while (at < input_length) {
        next(number(next(2), 2));
        unpack();
        for (uint64_t n = number(next(2), 2); n; n--, files++) {
            query();
            for (size_t i = 0; i < times; i++)
                for (int way = 0; way < WAYS; way++, reads++) {
                    bool sufficed = grow(way);
                    EXPECT(sufficed || way == SCANT);
                    enough += sufficed;
                }
        }
        free(image);
    }
    if (whole)
        EXPECT(write(1, called, call.length) == (long)call.length);
    else
        tell(" files, ", files), tell(" reads, ", reads), tell(" of them with memory in time\n", enough);
    return 0;
}
