/* calls.c: every call of vault.h, on the small show of show.h, with and without the bodies of its descriptors checked; opening through maps; the same
 * opening and reads a sector at a time, with a sector denied at each place; a vault that is written, and read back; surveys; records of a listing by hand; and
 * every piece of memory as (NULL, 0).
 *
 * What is expected is read off the show's layout. No two pieces of memory that a call is lent have the same length, so that an argument in
 * another's place is seen. Ends with 0, or says what isn't so. */
#include "show.h"

static const char cue[] = "cue 10.1A\nfront wash 80, blue backs 40, follow 6 seconds\n";
static const char other[] = "cue 10.1a\nfront wash 20, the look before the interval\n";

static void lend(void) {
    memset(out, FREE, OUT);
    memset(work, FREE, WORK);
    memset(row, FREE, sizeof row);
    memset(run, FREE, sizeof run);
}

static bool is_all(const void *from, size_t n, uint8_t byte) {
    for (size_t i = 0; i < n; i++)
        if (((const uint8_t *)from)[i] != byte) return false;
    return true;
}

/* Whether the output holds this and is as it came behind it. */
static bool holds(const void *bytes, size_t n) { return !memcmp(out, bytes, n) && is_all(out + n, OUT - n, FREE); }

static bool is_reply(vault_reply r, uint64_t answer, uint64_t count, uint64_t length) {
    return r.answer == answer && r.count == count && r.length == length;
}

static bool is_icb(vault_long_ad icb, uint32_t block) {
    static const uint8_t use[6] = {1, 2, 3, 4, 5, 6};
    return icb.length == SECTOR && icb.extent_type == 0 && icb.location.block == block && icb.location.partition_ref == PARTITION &&
           !memcmp(icb.implementation_use, use, 6);
}

static void probe(void) {
    static const char *const sequence[] = {"BEA01", "NSR02", "TEA01"};
    EXPECT(!vault_probe(image, IMAGE));
    for (size_t i = 0; i < 3; i++) memcpy(image + (16 + i) * SECTOR + 1, sequence[i], 5);
    EXPECT(vault_probe(image, IMAGE));
    EXPECT(!vault_probe(image, 18 * SECTOR));
}

/* The anchor, four sectors of the sequence, and the file set. */
static vault_volume opened(uint32_t how) {
    vault_opened r = vault_open(image, IMAGE, how);
    EXPECT(r.answer == VAULT_DONE && r.count == 6);
    EXPECT(r.volume.mount.start == START && r.volume.mount.partition == PARTITION && r.volume.mount.checked == (how & VAULT_CHECKED));
    EXPECT(is_icb(r.volume.root, 3));
    EXPECT(!memcmp(r.volume.label, "\x08SHOW 1", 7) && is_all(r.volume.label + 7, 24, 0) && r.volume.label[31] == 7);
    return r.volume;
}

static void is_unopened(size_t length, uint32_t how, uint64_t answer, uint64_t count) {
    vault_opened r = vault_open(image, length, how);
    EXPECT(r.answer == answer && r.count == count);
    EXPECT(r.volume.mount.start == 0 && r.volume.mount.partition == 0 && r.volume.mount.checked == 0 && is_all(r.volume.label, 32, 0));
}

/* An image that is cut, and every bit that is of no choice, alone and beside those that are. */
static void unopened(void) {
    is_unopened(START * SECTOR, 0, VAULT_IO, 6);
    is_unopened(START * SECTOR, VAULT_CHECKED, VAULT_IO, 6);
    for (uint32_t bit = 1; bit; bit *= 2) {
        if (bit == VAULT_CHECKED || bit == VAULT_MAPS || bit == VAULT_HIGHEST) continue;
        is_unopened(IMAGE, bit, VAULT_UNSUPPORTED, 0);
        is_unopened(IMAGE, bit + VAULT_CHECKED, VAULT_UNSUPPORTED, 0);
        is_unopened(IMAGE, bit + VAULT_HIGHEST + VAULT_CHECKED, VAULT_UNSUPPORTED, 0);
    }
}

static void label(void) {
    for (uint32_t how = 0; how < 8; how++) {
        bool is_mapped = how & VAULT_MAPS;
        lend();
        EXPECT(is_reply(vault_label(image, IMAGE, how, out, OUT), is_mapped ? VAULT_UNSUPPORTED : VAULT_DONE, is_mapped ? 5 : 6, is_mapped ? 0 : 6));
        EXPECT(holds("SHOW 1", is_mapped ? 0 : 6));
    }
    lend();
    EXPECT(is_reply(vault_label(image, IMAGE, 8, out, OUT), VAULT_UNSUPPORTED, 0, 0) && holds("", 0));
    lend();
    EXPECT(is_reply(vault_label(image, IMAGE, 0, out, 5), VAULT_NO_ROOM, 6, 0) && holds("", 0));
}

static vault_long_ad found(vault_volume v, const char *path, vault_matching matching, uint64_t count, uint32_t block) {
    lend();
    vault_found r = vault_lookup(v, image, IMAGE, (const uint8_t *)path, strlen(path), matching, work, WORK);
    EXPECT(r.answer == VAULT_DONE && r.count == count && is_icb(r.icb, block));
    EXPECT(is_all(work, WORK, 0) && holds("", 0));
    return r.icb;
}

static void refused(vault_volume v, const char *path, vault_matching matching, uint64_t answer, uint64_t count) {
    lend();
    vault_found r = vault_lookup(v, image, IMAGE, (const uint8_t *)path, strlen(path), matching, work, WORK);
    EXPECT(r.answer == answer && r.count == count && r.icb.length == 0 && r.icb.location.block == 0);
    EXPECT(is_all(work, WORK, 0) && holds("", 0));
}

/* Two cues differ in case alone. A number beyond the choices is the last of them. */
static void matched(vault_volume v) {
    found(v, "SHOW/10.1a", VAULT_CASE_IGNORED, 2, 7);
    found(v, "SHOW/10.1a", VAULT_AS_WRITTEN, 2, 9);
    refused(v, "show/10.1a", VAULT_AS_WRITTEN, VAULT_NOT_BLURAY, 1);
    found(v, "show/11", VAULT_UNAMBIGUOUS, 2, 11);
    refused(v, "SHOW/10.1a", VAULT_UNAMBIGUOUS, VAULT_AMBIGUOUS, 2);
    refused(v, "SHOW/10.1a", (vault_matching)UINT32_MAX, VAULT_AMBIGUOUS, 2);
}

static void failed(vault_volume v) {
    size_t at = 99;
    lend();
    const uint8_t *path = (const uint8_t *)"SHOW/12.5";
    EXPECT(is_reply(vault_failed(v, image, IMAGE, path, 9, VAULT_CASE_IGNORED, work, WORK, &at), VAULT_NOT_BLURAY, 2, 4));
    EXPECT(at == 5 && is_all(work, WORK, 0));
    lend();
    path = (const uint8_t *)"SHOW/11";
    EXPECT(is_reply(vault_failed(v, image, IMAGE, path, 7, VAULT_CASE_IGNORED, work, 8, &at), VAULT_NO_WORK, 1, 0));
    EXPECT(at == 0 && is_all(work, 8, 0) && is_all(work + 8, WORK - 8, FREE));
    path = (const uint8_t *)"SHOW/10.1a/11";
    EXPECT(is_reply(vault_failed(v, image, IMAGE, path, 13, VAULT_AS_WRITTEN, work, WORK, &at), VAULT_NOT_BLURAY, 2, 2) && at == 11);
    EXPECT(is_reply(vault_failed(v, image, IMAGE, path, 13, VAULT_UNAMBIGUOUS, work, WORK, &at), VAULT_AMBIGUOUS, 2, 0) && at == 0);
}

/* The records of a listing or a show that stands in `out`, taken off one by one: the entries of the list above. Cut anywhere, no more of them are there
 * than stand there whole. */
static void records(size_t length, bool levels, const char *const *names, size_t n) {
    vault_entry e;
    size_t at = 0;
    for (size_t i = 0; i < n; i++) {
        size_t from = at;
        EXPECT(vault_next_record(out, length, levels, &at, &e));
        bool top = levels && i == 0;
        EXPECT(e.directory == top && e.level == (levels ? (top ? 1 : 2) : 0) && e.name_length == strlen(names[i]) && !memcmp(e.name, names[i], e.name_length));
        EXPECT(is_icb(e.icb, top ? 4 : (uint32_t)(levels ? 3 + 2 * i : 5 + 2 * i)) && e.name + e.name_length == out + at);
        for (size_t cut = from; cut < at; cut++) {
            size_t stays = from;
            EXPECT(!vault_next_record(out, cut, levels, &stays, &e) && stays == from);
        }
    }
    EXPECT(at == length && !vault_next_record(out, length, levels, &at, &e) && at == length);
}

/* A record by hand, at the front of a listing: an ICB of this raw length with a number of its own in each field, and a name of n bytes. */
static uint8_t listing[22 + 65535];

static size_t by_hand(bool levels, uint8_t kind, uint32_t raw, size_t n) {
    static const uint8_t rest[12] = {0xef, 0xcd, 0xab, 0x89, 0xdc, 0xfe, 1, 2, 3, 4, 5, 6};
    uint8_t *r = listing + (levels ? 3 : 2);
    listing[0] = 0x44;
    listing[1] = 0x45;
    listing[2] = 0xc8;
    r[0] = kind;
    for (size_t i = 0; i < 4; i++) r[1 + i] = (uint8_t)(raw >> 8 * i);
    memcpy(r + 5, rest, 12);
    r[17] = (uint8_t)n;
    r[18] = (uint8_t)(n >> 8);
    for (size_t i = 0; i < n; i++) r[19 + i] = (uint8_t)(i % 251);
    return (levels ? 22 : 21) + n;
}

/* Whether a record of so many bytes is none, and nothing was moved or written. */
static bool is_none(size_t length, bool levels, size_t from) {
    vault_entry e;
    size_t at = from;
    memset(&e, FREE, sizeof e);
    return !vault_next_record(listing, length, levels, &at, &e) && at == from && is_all(&e, sizeof e, FREE);
}

static void is_record(bool levels, uint8_t kind, uint32_t length, uint8_t type, size_t n) {
    vault_entry e;
    size_t at = 0, all = by_hand(levels, kind, length | (uint32_t)type << 30, n);
    EXPECT(vault_next_record(listing, all, levels, &at, &e) && at == all);
    EXPECT(e.icb.length == length && e.icb.extent_type == type && e.icb.location.block == 0x89abcdef && e.icb.location.partition_ref == 0xfedc);
    EXPECT(!memcmp(e.icb.implementation_use, "\1\2\3\4\5\6", 6) && e.directory == (kind == 1) && e.level == (levels ? 0xc8 : 0));
    EXPECT(e.name == listing + all - n && e.name_length == n);
    EXPECT(is_none(all - 1, levels, 0) && is_none(all, levels, all) && is_none(all, levels, all + 1) && is_none(all, levels, SIZE_MAX));
}

/* Each type with lengths up to 30 bits, names of more than a byte's number of bytes, each bit of the two marks, and a whole record behind the listing's end. */
static void records_by_hand(void) {
    static const uint32_t lengths[] = {0, 1, 2048, 0x20000000, 0x3fffffff};
    static const size_t names[] = {0, 1, 255, 256, 257, 65535};
    for (uint32_t i = 0; i < 2 * 4 * 5 * 6; i++) is_record(i % 2, (uint8_t)(i % 3), lengths[i / 8 % 5], (uint8_t)(i / 2 % 4), names[i / 40]);
    for (uint32_t i = 0; i < 2 * 2 * 8; i++) {
        size_t all = by_hand(i % 2, 0, SECTOR, 5);
        listing[i / 2 % 2] ^= (uint8_t)(1 << i / 4);
        EXPECT(is_none(all, i % 2, 0));
    }
    for (uint32_t i = 0; i < 2; i++) {
        memmove(listing + 1, listing, by_hand(i, 0, SECTOR, 5));
        EXPECT(is_none(0, i, 1));
    }
}

/* The text of each answer begins like this; a number that isn't in the table has a text of its own. */
static void texts(void) {
    static const char *const fronts[17] = {"Done", "A sector", "Too few", "No volume", "Not supported", "The result", "A directory has", "There are more extents",
                                           NULL, "A component", "A descriptor", "A directory is at", "There are more paths", "A name", "The files",
                                           "The lengths", "The call would ask"};
    for (uint64_t n = 0; n < 20; n++) {
        const char *front = n < 17 && fronts[n] ? fronts[n] : "An unknown number";
        const char *text = vault_answer_text(n);
        EXPECT(strlen(text) >= strlen(front) && !memcmp(text, front, strlen(front)));
    }
    EXPECT(!memcmp(vault_answer_text(UINT64_MAX), "An unknown number", 18) && strlen(vault_answer_text(VAULT_DONE)) == 4);
}

/* A record of each cue: 44 45 0, the ICB, the name's length, the name. */
static void list(vault_volume v, vault_long_ad directory) {
    static const char *const names[] = {"9", "10.1A", "10.1a", "11"};
    size_t at = 0;
    lend();
    vault_reply r = vault_list(v, image, IMAGE, directory, out, OUT, work, WORK);
    for (uint32_t i = 0; i < 4; i++) {
        size_t n = strlen(names[i]);
        EXPECT(out[at] == 0x44 && out[at + 1] == 0x45 && out[at + 2] == 0);
        EXPECT(number(out + at + 3) == SECTOR && number(out + at + 7) == 5 + 2 * i && out[at + 11] == PARTITION);
        EXPECT(out[at + 19] == n && out[at + 20] == 0 && !memcmp(out + at + 21, names[i], n));
        at += 21 + n;
    }
    EXPECT(is_reply(r, VAULT_DONE, 1, at) && is_all(out + at, OUT - at, FREE) && is_all(work, WORK, 0));
    records(at, false, names, 4);
}

/* The same below a record of the directory itself, with the level of each behind its mark. A directory at the last level refuses it. */
static void show(vault_volume v) {
    static const char *const names[] = {"SHOW", "9", "10.1A", "10.1a", "11"};
    size_t at = 0;
    lend();
    vault_reply r = vault_show(v, image, IMAGE, 2, 2, out, OUT, work, WORK);
    for (uint32_t i = 0; i < 5; i++) {
        size_t n = strlen(names[i]);
        EXPECT(out[at] == 0x44 && out[at + 1] == 0x45 && out[at + 2] == (i ? 2 : 1) && out[at + 3] == (i ? 0 : 1));
        EXPECT(number(out + at + 4) == SECTOR && number(out + at + 8) == (i ? 3 + 2 * i : 4) && out[at + 12] == PARTITION);
        EXPECT(out[at + 20] == n && out[at + 21] == 0 && !memcmp(out + at + 22, names[i], n));
        at += 22 + n;
    }
    EXPECT(is_reply(r, VAULT_DONE, 2, at) && is_all(out + at, OUT - at, FREE) && is_all(work, WORK, 0));
    records(at, true, names, 5);
    lend();
    EXPECT(is_reply(vault_show(v, image, IMAGE, 1, VAULT_UNLIMITED, out, OUT, work, WORK), VAULT_TOO_DEEP, 1, 0) && holds("", 0) && is_all(work, WORK, 0));
    lend();
    EXPECT(is_reply(vault_show(v, image, IMAGE, 17, 0, out, OUT, work, WORK), VAULT_TOO_DEEP, 0, 0) && holds("", 0) && is_all(work, WORK, 0));
    EXPECT(is_reply(vault_show(v, image, IMAGE, 2, VAULT_UNLIMITED, out, at - 1, work, WORK), VAULT_NO_ROOM, 2, 0));
    /* One sector fewer than it asks for, and fewer than any. 5 stands behind all questions. */
    for (uint64_t most = 0; most < 2; most++) {
        lend();
        EXPECT(is_reply(vault_show(v, image, IMAGE, 2, most, out, OUT, work, WORK), VAULT_OVER_BUDGET, most, 0) && holds("", 0) && is_all(work, WORK, 0));
        EXPECT(is_reply(vault_show(v, image, IMAGE, 2, most, out, 0, work, WORK), VAULT_OVER_BUDGET, most, 0));
    }
}

static void read_cue(vault_volume v, vault_long_ad icb) {
    size_t n = sizeof cue - 1, m = sizeof other - 1;
    const uint8_t *path = (const uint8_t *)"/SHOW/10.1a";
    lend();
    EXPECT(is_reply(vault_read(v, image, IMAGE, icb, out, OUT), VAULT_DONE, 2, n) && holds(cue, n));
    EXPECT(is_reply(vault_measure(v, image, IMAGE, icb), VAULT_DONE, 2, n));
    EXPECT(is_reply(vault_measure(v, image, (START + 8) * SECTOR, icb), VAULT_IO, 2, 0));
    lend();
    EXPECT(is_reply(vault_read_path(v, image, IMAGE, path, 11, VAULT_CASE_IGNORED, out, OUT, work, WORK), VAULT_DONE, 4, n));
    EXPECT(holds(cue, n) && is_all(work, WORK, 0));
    lend();
    EXPECT(is_reply(vault_read_path(v, image, IMAGE, path, 11, VAULT_AS_WRITTEN, out, OUT, work, WORK), VAULT_DONE, 4, m));
    EXPECT(holds(other, m) && is_all(work, WORK, 0));
    lend();
    EXPECT(is_reply(vault_read_path(v, image, IMAGE, path, 11, VAULT_UNAMBIGUOUS, out, OUT, work, WORK), VAULT_AMBIGUOUS, 2, 0));
    EXPECT(holds("", 0) && is_all(work, WORK, 0));
}

/* Three cues in one call, of which the second isn't there: it takes no room, and the third stands behind the first. */
static void read_all(vault_volume v) {
    static const char paths[] = "SHOW/10.1A\0SHOW/none\0SHOW/10.1a";
    size_t n = sizeof cue - 1, m = sizeof other - 1;
    uint64_t lengths[4] = {99, 99, 99, 99};
    uint32_t answers[4] = {99, 99, 99, 99};
    const uint8_t *list = (const uint8_t *)paths;
    lend();
    EXPECT(is_reply(vault_read_all(v, image, IMAGE, list, sizeof paths - 1, VAULT_AS_WRITTEN, out, OUT, lengths, 2, answers, 4, work, WORK),
                    VAULT_TOO_MANY, 0, 0));
    EXPECT(holds("", 0) && is_all(work, WORK, 0) && lengths[0] == 99 && answers[0] == 99);
    lend();
    EXPECT(is_reply(vault_read_all(v, image, IMAGE, list, sizeof paths - 1, VAULT_AS_WRITTEN, out, OUT, lengths, 4, answers, 3, work, WORK),
                    VAULT_DONE, 10, n + m));
    EXPECT(!memcmp(out, cue, n) && !memcmp(out + n, other, m) && is_all(out + n + m, OUT - n - m, FREE) && is_all(work, WORK, 0));
    EXPECT(lengths[0] == n && lengths[1] == 0 && lengths[2] == m && lengths[3] == 99);
    EXPECT(answers[0] == VAULT_DONE && answers[1] == VAULT_NOT_BLURAY && answers[2] == VAULT_DONE && answers[3] == 99);
}

/* A directory of this show is embedded in its entry; a cue is not. */
static void part(vault_volume v, vault_long_ad directory, vault_long_ad icb) {
    size_t at = 99, n = number(image + (START + 4) * SECTOR + ENTRY - 4);
    EXPECT(is_reply(vault_part(v, image, IMAGE, directory, &at), VAULT_DONE, 1, n) && at == (START + 4) * SECTOR + ENTRY);
    EXPECT(is_reply(vault_part(v, image, IMAGE, icb, &at), VAULT_DONE, 1, 0) && at == 0);
}

static void extents(vault_volume v, vault_long_ad icb) {
    lend();
    EXPECT(is_reply(vault_extents(v, image, IMAGE, icb, row, SLOTS), VAULT_DONE, 1, 1));
    EXPECT(row[0].length == sizeof cue - 1 && row[0].extent_type == 0 && row[0].block == 8 && row[0].partition == 65536);
    EXPECT(is_all(row + 1, 2 * sizeof *row, FREE));
    lend();
    EXPECT(is_reply(vault_extents(v, image, IMAGE, icb, row, 0), VAULT_NO_SLOT, 1, 0) && is_all(row, sizeof row, FREE));
}

/* A cue is one run, at its sector; a directory one inside its entry. 7 comes after what a read is refused by. */
static void runs(vault_volume v, vault_long_ad directory, vault_long_ad icb) {
    size_t n = number(image + (START + 4) * SECTOR + ENTRY - 4);
    lend();
    EXPECT(is_reply(vault_runs(v, image, IMAGE, icb, run, RUNS), VAULT_DONE, 2, 1));
    EXPECT(run[0].at == (START + 8) * SECTOR && run[0].length == sizeof cue - 1 && is_all(run + 1, (RUNS - 1) * sizeof *run, FREE));
    EXPECT(!memcmp(image + run[0].at, cue, run[0].length));
    EXPECT(is_reply(vault_runs(v, image, IMAGE, directory, run, 1), VAULT_DONE, 1, 1) && run[0].at == (START + 4) * SECTOR + ENTRY && run[0].length == n);
    lend();
    EXPECT(is_reply(vault_runs(v, image, IMAGE, icb, run, 0), VAULT_NO_SLOT, 2, 0) && is_all(run, sizeof run, FREE));
    EXPECT(is_reply(vault_runs(v, image, IMAGE, directory, run, 0), VAULT_NO_SLOT, 1, 0) && is_all(run, sizeof run, FREE));
    EXPECT(is_reply(vault_runs(v, image, (START + 8) * SECTOR, icb, run, 0), VAULT_IO, 2, 0) && is_all(run, sizeof run, FREE));
}

/* The bytes of a sector that is wanted, or none of them. */
static size_t lent(bool denied) { return denied ? 0 : VAULT_SECTOR_SIZE; }

/* A sector of VAULT_SECTOR_SIZE bytes is taken; one of a byte less or more can't be had. */
static void sectors(void) {
    EXPECT(VAULT_SECTOR_SIZE == 2048);
    for (size_t n = VAULT_SECTOR_SIZE - 1; n <= VAULT_SECTOR_SIZE + 1; n++) {
        vault_opening o = vault_opening_step(vault_opening_start(), image + 256 * SECTOR, n);
        EXPECT(vault_opening_is_wanting(o) == (n == VAULT_SECTOR_SIZE) && o.opened.count == 1);
        EXPECT(o.opened.answer == (n == VAULT_SECTOR_SIZE ? VAULT_DONE : VAULT_IO));
    }
}

/* A state by hand has ended in a phase that wants a sector: its continuation has more bytes than its sectors. */
static void ended_by_hand(vault_volume v, vault_long_ad icb) {
    vault_reading r = vault_reading_start(v, icb, row, SLOTS);
    r.phase = 1;
    r.at = 300;
    r.size = 3000;
    r.hops = 5;
    EXPECT(!vault_reading_is_wanting(r) && vault_reading_wants(r) == 0);
    r.size = 2048;
    EXPECT(vault_reading_is_wanting(r) && vault_reading_wants(r) == 300);
}

/* The sectors that an opening wants, in order, up to one that is denied: the answer is vault_open's, or VAULT_IO with those so far. */
static void stepped_open(void) {
    static const uint64_t wanted[] = {256, 32, 33, 34, 35, START + 2};
    vault_opened whole = vault_open(image, IMAGE, 0);
    for (size_t denied = 0; denied < 7; denied++) {
        vault_opening o = vault_opening_start();
        size_t last = denied < 6 ? denied : 5;
        for (size_t i = 0; i <= last; i++) {
            EXPECT(vault_opening_is_wanting(o) && vault_opening_wants(o) == wanted[i] && o.opened.count == i && o.opened.answer == 0);
            o = vault_opening_step(o, image + wanted[i] * SECTOR, lent(i == denied));
        }
        EXPECT(!vault_opening_is_wanting(o) && vault_opening_wants(o) == 0 && o.opened.count == last + 1);
        EXPECT(o.opened.answer == (denied < 6 ? VAULT_IO : VAULT_DONE));
        if (denied < 6)
            EXPECT(is_all(o.opened.volume.label, 32, 0) && o.opened.volume.mount.start == 0);
        else
            EXPECT(!memcmp(o.opened.volume.label, whole.volume.label, 32) && o.opened.volume.mount.start == START && is_icb(o.opened.volume.root, 3));
        vault_opening more = vault_opening_step(o, image, SECTOR);
        EXPECT(more.phase == o.phase && more.opened.count == o.opened.count && more.opened.answer == o.opened.answer);
    }
}

/* A read of n sectors, the last of which may be denied, into so many slots and bytes. The row is zeroed at its start and its end. */
static vault_reading stepped(vault_volume v, vault_long_ad icb, const uint32_t *wanted, size_t n, bool denied, size_t slots, size_t room) {
    lend();
    vault_reading r = vault_reading_start(v, icb, row, slots);
    EXPECT(is_all(row, slots * sizeof *row, 0) && is_all(row + slots, (SLOTS - slots) * sizeof *row, FREE));
    for (size_t i = 0; i < n; i++) {
        EXPECT(vault_reading_is_wanting(r) && vault_reading_wants(r) == wanted[i] && r.count == i && r.answer == 0);
        r = vault_reading_step(r, image + wanted[i] * SECTOR, lent(denied && i + 1 == n), row, slots, out, room);
        EXPECT(is_all(out + r.length, OUT - r.length, FREE));
        if (i == 0 && n > 1) EXPECT(r.scan.listed == 1 && row[0].block == wanted[1] - START && row[0].length == sizeof cue - 1 && row[0].partition == 65536);
    }
    EXPECT(!vault_reading_is_wanting(r) && vault_reading_wants(r) == 0 && r.count == n);
    EXPECT(is_all(row, slots * sizeof *row, 0) && is_all(row + slots, (SLOTS - slots) * sizeof *row, FREE));
    vault_reading more = vault_reading_step(r, image, SECTOR, row, slots, out, room);
    EXPECT(more.count == n && more.length == r.length && more.answer == r.answer && is_all(out + r.length, OUT - r.length, FREE));
    return r;
}

static bool has_read(vault_reading r, uint64_t answer, size_t length) { return r.answer == answer && r.length == length; }

/* A cue has its entry and one sector, and one extent; a directory stands in its entry. */
static void stepped_read(vault_volume v, vault_long_ad directory, vault_long_ad icb) {
    static const uint32_t wanted[] = {START + 7, START + 8}, shown[] = {START + 4};
    size_t n = sizeof cue - 1, m = number(image + (START + 4) * SECTOR + ENTRY - 4);
    EXPECT(has_read(stepped(v, icb, wanted, 2, false, SLOTS, OUT), VAULT_DONE, n) && holds(cue, n));
    EXPECT(has_read(stepped(v, icb, wanted, 2, false, 1, n), VAULT_DONE, n) && holds(cue, n));
    EXPECT(has_read(stepped(v, icb, wanted, 2, false, 2, n - 1), VAULT_NO_ROOM, n - 1) && holds(cue, n - 1));
    EXPECT(has_read(stepped(v, icb, wanted, 1, false, 0, OUT), VAULT_NO_SLOT, 0) && holds("", 0));
    EXPECT(has_read(stepped(v, icb, wanted, 2, true, SLOTS, OUT), VAULT_IO, 0) && holds("", 0));
    EXPECT(has_read(stepped(v, icb, wanted, 1, true, SLOTS, OUT), VAULT_IO, 0) && holds("", 0));
    EXPECT(has_read(stepped(v, directory, shown, 1, false, 0, OUT), VAULT_DONE, m) && holds(image + (START + 4) * SECTOR + ENTRY, m));
    icb.length = 0;
    EXPECT(has_read(stepped(v, icb, wanted, 0, false, SLOTS, OUT), VAULT_MALFORMED, 0));
}

static bool is_named(vault_named r, uint64_t answer, uint32_t block) {
    return r.answer == answer && r.found == (block != 0) && !r.directory && (block ? is_icb(r.icb, block) : r.icb.length == 0 && r.icb.location.block == 0);
}

static vault_named matching(vault_volume v, uint32_t block, const char *name, vault_matching choice) {
    const uint8_t *entry = image + (START + block) * SECTOR + ENTRY;
    return vault_match(v, entry, number(entry - 4), (const uint8_t *)name, strlen(name), choice);
}

/* The bytes of a directory at hand, which are those in its entry: listed as from the image, and its entries by name. */
static void at_hand(vault_volume v, vault_long_ad directory) {
    static uint8_t listing[OUT];
    const uint8_t *bytes = image + (START + 4) * SECTOR + ENTRY;
    size_t n = number(bytes - 4);
    lend();
    vault_reply whole = vault_list(v, image, IMAGE, directory, out, OUT, work, WORK);
    memcpy(listing, out, OUT);
    lend();
    EXPECT(is_reply(vault_list_bytes(v, bytes, n, out, OUT), VAULT_DONE, 0, whole.length) && !memcmp(out, listing, OUT));
    lend();
    EXPECT(is_reply(vault_list_bytes(v, bytes, n, out, whole.length - 1), VAULT_NO_ROOM, 0, 0) && holds("", 0));
    EXPECT(is_named(matching(v, 4, "10.1a", VAULT_CASE_IGNORED), VAULT_DONE, 7));
    EXPECT(is_named(matching(v, 4, "10.1a", VAULT_AS_WRITTEN), VAULT_DONE, 9));
    EXPECT(is_named(matching(v, 4, "10.1a", VAULT_UNAMBIGUOUS), VAULT_AMBIGUOUS, 0));
    EXPECT(is_named(matching(v, 4, "10.1a", (vault_matching)3), VAULT_AMBIGUOUS, 0));
    EXPECT(is_named(matching(v, 4, "none", VAULT_CASE_IGNORED), VAULT_DONE, 0));
    vault_named show = matching(v, 3, "show", VAULT_CASE_IGNORED);
    EXPECT(show.answer == VAULT_DONE && show.found && show.directory && is_icb(show.icb, 4));
}

static bool stands(const char *path, size_t from, size_t at, size_t length) {
    vault_component c = vault_next_component((const uint8_t *)path, strlen(path), from);
    return c.at == at && c.length == length;
}

static void components(void) {
    EXPECT(stands("//SHOW/10.1a/", 0, 2, 4) && stands("//SHOW/10.1a/", 6, 7, 5) && stands("//SHOW/10.1a/", 12, 13, 0));
    EXPECT(stands("", 0, 0, 0) && stands("SHOW", 4, 4, 0) && stands("SHOW", 2, 2, 2) && stands("SHOW", SIZE_MAX, SIZE_MAX, 0));
}

/* Every piece of memory as (NULL, 0), in every call that takes one. */
static void nothing_lent(vault_volume v, vault_long_ad directory, vault_long_ad icb) {
    const uint8_t *path = (const uint8_t *)"SHOW";
    size_t at = 99;
    vault_entry e;
    lend();
    EXPECT(!vault_probe(NULL, 0) && vault_open(NULL, 0, 0).answer == VAULT_IO);
    EXPECT(is_reply(vault_label(image, IMAGE, 0, NULL, 0), VAULT_NO_ROOM, 6, 0));
    vault_found root = vault_lookup(v, NULL, 0, NULL, 0, VAULT_AS_WRITTEN, NULL, 0);
    EXPECT(root.answer == VAULT_DONE && root.count == 0 && is_icb(root.icb, 3));
    EXPECT(vault_lookup(v, image, IMAGE, path, 4, VAULT_AS_WRITTEN, NULL, 0).answer == VAULT_NO_WORK);
    EXPECT(is_reply(vault_failed(v, NULL, 0, NULL, 0, VAULT_AS_WRITTEN, NULL, 0, &at), VAULT_DONE, 0, 0) && at == 0);
    EXPECT(is_reply(vault_list(v, image, IMAGE, directory, NULL, 0, NULL, 0), VAULT_NO_WORK, 1, 0));
    EXPECT(is_reply(vault_list(v, image, IMAGE, directory, NULL, 0, work, WORK), VAULT_NO_ROOM, 1, 0));
    EXPECT(is_reply(vault_show(v, image, IMAGE, 2, VAULT_UNLIMITED, NULL, 0, NULL, 0), VAULT_NO_WORK, 1, 0));
    EXPECT(is_reply(vault_show(v, image, IMAGE, 2, VAULT_UNLIMITED, NULL, 0, work, WORK), VAULT_NO_ROOM, 2, 0));
    EXPECT(is_reply(vault_read(v, image, IMAGE, icb, NULL, 0), VAULT_NO_ROOM, 2, 0));
    EXPECT(is_reply(vault_read(v, NULL, 0, icb, NULL, 0), VAULT_IO, 1, 0) && is_reply(vault_measure(v, NULL, 0, icb), VAULT_IO, 1, 0));
    EXPECT(is_reply(vault_part(v, NULL, 0, icb, &at), VAULT_IO, 1, 0) && is_reply(vault_extents(v, image, IMAGE, icb, NULL, 0), VAULT_NO_SLOT, 1, 0));
    EXPECT(is_reply(vault_runs(v, image, IMAGE, icb, NULL, 0), VAULT_NO_SLOT, 2, 0));
    EXPECT(is_reply(vault_read_path(v, NULL, 0, NULL, 0, VAULT_AS_WRITTEN, NULL, 0, NULL, 0), VAULT_IO, 1, 0));
    EXPECT(is_reply(vault_read_all(v, image, IMAGE, NULL, 0, VAULT_AS_WRITTEN, NULL, 0, NULL, 0, NULL, 0, NULL, 0), VAULT_TOO_MANY, 0, 0));
    EXPECT(vault_write_total(NULL, 0, NULL, 0).answer == VAULT_DONE && vault_write(NULL, 0, NULL, 0, NULL, 0, NULL, 0).answer == VAULT_NO_ROOM);
    EXPECT(vault_opening_step(vault_opening_start(), NULL, 0).opened.answer == VAULT_IO);
    vault_reading r = vault_reading_start(v, icb, NULL, 0);
    EXPECT(vault_reading_step(r, NULL, 0, NULL, 0, NULL, 0).answer == VAULT_IO);
    EXPECT(vault_reading_step(r, image + (START + 7) * SECTOR, SECTOR, NULL, 0, NULL, 0).answer == VAULT_NO_SLOT);
    EXPECT(vault_reading_step(vault_reading_start(v, directory, NULL, 0), image + (START + 4) * SECTOR, SECTOR, NULL, 0, NULL, 0).answer == VAULT_NO_ROOM);
    EXPECT(is_reply(vault_list_bytes(v, NULL, 0, NULL, 0), VAULT_DONE, 0, 0) && !vault_match(v, NULL, 0, NULL, 0, VAULT_AS_WRITTEN).found);
    EXPECT(vault_next_component(NULL, 0, 0).length == 0 && !vault_next_record(NULL, 0, true, &at, &e));
    EXPECT(vault_survey(NULL, 0, NULL, 0, 0, 0, NULL, 0, NULL, 0) == VAULT_BAD_SHELF && vault_survey_total(NULL, 0, 0) == VAULT_BAD_SHELF);
}

/* Every call on a volume. */
static void asked(vault_volume v) {
    vault_long_ad directory = found(v, "SHOW", VAULT_CASE_IGNORED, 1, 4), icb = found(v, "SHOW/10.1A", VAULT_CASE_IGNORED, 2, 7);
    matched(v);
    failed(v);
    list(v, directory);
    show(v);
    read_cue(v, icb);
    read_all(v);
    part(v, directory, icb);
    extents(v, icb);
    runs(v, directory, icb);
    stepped_read(v, directory, icb);
    ended_by_hand(v, icb);
    at_hand(v, directory);
    nothing_lent(v, directory, icb);
}

/* Through the maps, of which the show has none. With two it is opened by the second; the root's reference, 5, is that of no map. */
static void mapped(void) {
    static const uint8_t maps[12] = {1, 6, 7, 0, PARTITION, 0, 1, 6, 8, 0, PARTITION, 0};
    static uint8_t kept[SECTOR];
    uint8_t *logical = image + 34 * SECTOR;
    is_unopened(IMAGE, VAULT_MAPS, VAULT_UNSUPPORTED, 5);
    memcpy(kept, logical, SECTOR);
    logical[256] = 1;
    logical[264] = 12;
    logical[268] = 2;
    memcpy(logical + 440, maps, 12);
    vault_opened r = vault_open(image, IMAGE, VAULT_MAPS + VAULT_HIGHEST);
    vault_mount m = r.volume.mount;
    EXPECT(r.answer == VAULT_DONE && r.count == 6 && m.start == START && m.partition == PARTITION && m.maps == 2);
    EXPECT(m.volumes[0] == 7 && m.volumes[1] == 8 && m.volumes[2] == 0 && m.volumes[3] == 0);
    EXPECT(m.numbers[0] == PARTITION && m.numbers[1] == PARTITION && m.numbers[2] == 0 && m.numbers[3] == 0);
    EXPECT(m.starts[0] == START && m.starts[1] == START && m.starts[2] == 0 && m.starts[3] == 0);
    refused(r.volume, "SHOW", VAULT_CASE_IGNORED, VAULT_UNSUPPORTED, 0);
    r.volume.root.location.partition_ref = 1;
    vault_found show = vault_lookup(r.volume, image, IMAGE, (const uint8_t *)"SHOW", 4, VAULT_CASE_IGNORED, work, WORK);
    EXPECT(show.answer == VAULT_DONE && show.count == 1 && is_icb(show.icb, 4));
    is_unopened(IMAGE, 0, VAULT_UNSUPPORTED, 5);
    memcpy(logical, kept, SECTOR);
}

/* One bit of a descriptor's body, where nothing stands that is read. */
static void flip(uint32_t sector, size_t at) { image[sector * SECTOR + at] ^= 0x10; }

/* A wrong body on the way refuses the opening at its sector, where bodies are checked; where they aren't nothing is seen of it. */
static void ruined_volume(void) {
    static const struct {
        uint32_t sector, count;
    } bodies[] = {{256, 1}, {32, 2}, {33, 3}, {34, 4}, {START + 2, 6}};
    for (size_t i = 0; i < 5; i++) {
        flip(bodies[i].sector, 80);
        opened(0);
        opened(VAULT_HIGHEST);
        is_unopened(IMAGE, VAULT_CHECKED, VAULT_BAD_CRC, bodies[i].count);
        is_unopened(IMAGE, VAULT_CHECKED + VAULT_HIGHEST, VAULT_BAD_CRC, bodies[i].count);
        lend();
        EXPECT(is_reply(vault_label(image, IMAGE, VAULT_CHECKED, out, OUT), VAULT_BAD_CRC, bodies[i].count, 0) && holds("", 0));
        flip(bodies[i].sector, 80);
    }
}

/* The same of the calls on a volume that is checked: SHOW's entry, and then the cue's, have a wrong body. */
static void ruined_files(vault_volume checked, vault_long_ad directory, vault_long_ad icb) {
    const uint8_t *path = (const uint8_t *)"SHOW/10.1A";
    vault_volume unchecked = checked;
    size_t at = 99;
    unchecked.mount.checked = 0;
    flip(START + 4, 40);
    asked(unchecked);
    refused(checked, "SHOW/11", VAULT_AS_WRITTEN, VAULT_BAD_CRC, 2);
    EXPECT(is_reply(vault_failed(checked, image, IMAGE, path, 10, VAULT_UNAMBIGUOUS, work, WORK, &at), VAULT_BAD_CRC, 2, 0) && at == 0);
    lend();
    EXPECT(is_reply(vault_list(checked, image, IMAGE, directory, out, OUT, work, WORK), VAULT_BAD_CRC, 1, 0));
    EXPECT(holds("", 0) && is_all(work, WORK, 0));
    EXPECT(has_read(stepped(checked, directory, (const uint32_t[]){START + 4}, 1, false, SLOTS, OUT), VAULT_BAD_CRC, 0));
    flip(START + 4, 40);
    flip(START + 7, 40);
    asked(unchecked);
    found(checked, "SHOW/10.1A", VAULT_CASE_IGNORED, 2, 7);
    lend();
    EXPECT(is_reply(vault_read(checked, image, IMAGE, icb, out, OUT), VAULT_BAD_CRC, 1, 0) && holds("", 0));
    EXPECT(is_reply(vault_read_path(checked, image, IMAGE, path, 10, VAULT_AS_WRITTEN, out, OUT, work, WORK), VAULT_BAD_CRC, 3, 0));
    EXPECT(holds("", 0) && is_all(work, WORK, 0));
    at = 99;
    EXPECT(is_reply(vault_part(checked, image, IMAGE, icb, &at), VAULT_BAD_CRC, 1, 0) && at == 0);
    EXPECT(is_reply(vault_extents(checked, image, IMAGE, icb, row, SLOTS), VAULT_BAD_CRC, 1, 0) && is_all(row, sizeof row, FREE));
    EXPECT(is_reply(vault_runs(checked, image, IMAGE, icb, run, RUNS), VAULT_BAD_CRC, 1, 0) && is_all(run, sizeof run, FREE));
    EXPECT(has_read(stepped(checked, icb, (const uint32_t[]){START + 7}, 1, false, SLOTS, OUT), VAULT_BAD_CRC, 0));
    flip(START + 7, 40);
}

/* A vault of two files, one of them empty, written and read back; it has 384 sectors. */
enum { LAYOUT = 384 * SECTOR, BEHIND = 700, STAGED = 2049 };
static uint8_t vault[LAYOUT + BEHIND], staging[STAGED];
static const char names[] = "9\0" "10.1A"; /* The last zero byte is that of the text. */

static bool is_written(vault_write_reply r, uint64_t answer, uint64_t sectors) { return r.answer == answer && r.sectors == sectors; }

static vault_write_reply writing(size_t n, const uint64_t *lengths, size_t places, size_t staged, size_t lent) {
    memset(vault, FREE, sizeof vault);
    return vault_write((const uint8_t *)names, n, lengths, places, staging, staged, vault, lent);
}

/* 13, 14 and 5 in their order: the worse is left in the call, and the lesser taken away. */
static void unwritten(void) {
    static const uint64_t lengths[3] = {0, STAGED, 0};
    const uint8_t *all = (const uint8_t *)names;
    EXPECT(is_written(vault_write_total(all, sizeof names - 1, lengths, 3), VAULT_BAD_NAME, 0));
    EXPECT(is_written(vault_write_total(all, sizeof names, lengths, 3), VAULT_BAD_FILES, 0));
    EXPECT(is_written(writing(sizeof names - 1, lengths, 3, STAGED - 1, LAYOUT - 1), VAULT_BAD_NAME, 0) && is_all(vault, sizeof vault, FREE));
    EXPECT(is_written(writing(sizeof names, lengths, 3, STAGED, LAYOUT - 1), VAULT_BAD_FILES, 0) && is_all(vault, sizeof vault, FREE));
    EXPECT(is_written(writing(sizeof names, lengths, 2, STAGED - 1, LAYOUT - 1), VAULT_BAD_FILES, 0) && is_all(vault, sizeof vault, FREE));
    EXPECT(is_written(writing(sizeof names, lengths, 2, STAGED, LAYOUT - 1), VAULT_NO_ROOM, 0) && is_all(vault, sizeof vault, FREE));
}

static void written(void) {
    static const uint64_t lengths[2] = {0, STAGED};
    static uint8_t got[STAGED + 100];
    for (size_t i = 0; i < STAGED; i++) staging[i] = (uint8_t)(7 * i + 1);
    unwritten();
    EXPECT(is_written(vault_write_total((const uint8_t *)names, sizeof names, lengths, 2), VAULT_DONE, 384));
    EXPECT(is_written(writing(sizeof names, lengths, 2, STAGED, sizeof vault), VAULT_DONE, 384));
    EXPECT(is_all(vault + LAYOUT, BEHIND, FREE) && vault_probe(vault, LAYOUT));
    for (uint32_t how = 0; how < 8; how++) {
        vault_opened r = vault_open(vault, LAYOUT, how);
        EXPECT(r.answer == VAULT_DONE && r.count == 8);
        EXPECT(is_reply(vault_read_path(r.volume, vault, LAYOUT, (const uint8_t *)"10.1a", 5, VAULT_UNAMBIGUOUS, got, sizeof got, work, WORK), VAULT_DONE,
                        5, STAGED));
        EXPECT(!memcmp(got, staging, STAGED) && is_all(work, WORK, 0));
        EXPECT(is_reply(vault_read_path(r.volume, vault, LAYOUT, (const uint8_t *)"9", 1, VAULT_AS_WRITTEN, got, sizeof got, work, WORK), VAULT_DONE, 3, 0));
    }
}

/* A shelf of the whole show and of nothing behind it: one place for each, and one for both. */
static union {
    uint64_t numbers[4 * VAULT_FIGURES];
    vault_figures of[4];
} figures;

static uint64_t survey_within(uint64_t most, const uint64_t *lengths, size_t images, uint32_t how, size_t places) {
    memset(&figures, FREE, sizeof figures);
    memset(work, FREE, WORK);
    uint64_t answer = vault_survey(image, IMAGE, lengths, images, how, most, figures.numbers, places, work, WORK);
    EXPECT(is_all(work, WORK, 0));
    return answer;
}

static uint64_t survey(const uint64_t *lengths, size_t images, uint32_t how, size_t places) {
    return survey_within(VAULT_UNLIMITED, lengths, images, how, places);
}

static bool is_figure(vault_figure f, uint64_t number) { return f.number == number && !f.over; }

static void is_show(const vault_figures *f, uint64_t bytes) {
    EXPECT(is_figure(f->files, 4) && is_figure(f->directories, 1) && is_figure(f->bytes, bytes));
    EXPECT(is_figure(f->extents, 4) && is_figure(f->sectors, 8) && is_figure(f->chain, 0));
    EXPECT(is_figure(f->files_by_answer[VAULT_DONE], 4) && is_all(f->files_by_answer + 1, 16 * sizeof(vault_figure), 0));
    EXPECT(is_figure(f->images_by_answer[VAULT_DONE], 1));
}

static void surveyed(vault_volume v) {
    static const uint64_t both[2] = {IMAGE, 0}, more[2] = {IMAGE, 1}, wrapped[2] = {IMAGE, UINT64_MAX - IMAGE + 2};
    uint64_t bytes = 0;
    for (uint32_t block = 5; block < 12; block += 2) {
        vault_long_ad icb = v.root;
        icb.location.block = block;
        bytes += vault_measure(v, image, IMAGE, icb).length;
    }
    EXPECT(survey(both, 2, 0, 4 * VAULT_FIGURES - 1) == VAULT_DONE);
    is_show(figures.of, bytes);
    EXPECT(is_all(figures.of[0].images_by_answer + 1, 16 * sizeof(vault_figure), 0));
    EXPECT(is_figure(figures.of[1].images_by_answer[VAULT_IO], 1) && is_all(figures.of + 1, offsetof(vault_figures, images_by_answer), 0));
    is_show(figures.of + 2, bytes);
    EXPECT(is_figure(figures.of[2].images_by_answer[VAULT_IO], 1) && is_all(figures.of + 3, sizeof *figures.of, FREE));
    EXPECT(survey(both, 2, 8, sizeof figures / 8) == VAULT_DONE && is_figure(figures.of[2].images_by_answer[VAULT_UNSUPPORTED], 2));
    /* The show takes 6 sectors to open, 2 for its tree and 8 for its files. The empty image behind it has its own. */
    EXPECT(survey_within(16, both, 2, 0, 3 * VAULT_FIGURES) == VAULT_DONE);
    is_show(figures.of, bytes);
    EXPECT(survey_within(15, both, 2, 0, 3 * VAULT_FIGURES) == VAULT_DONE && is_figure(figures.of[0].images_by_answer[VAULT_OVER_BUDGET], 1));
    EXPECT(is_all(figures.of, sizeof *figures.of - 2 * sizeof(vault_figure), 0) && is_figure(figures.of[0].chain, 0));
    EXPECT(is_figure(figures.of[1].images_by_answer[VAULT_IO], 1) && is_figure(figures.of[2].images_by_answer[VAULT_OVER_BUDGET], 1));
    EXPECT(survey_within(0, both, 2, 0, 3 * VAULT_FIGURES) == VAULT_DONE && is_figure(figures.of[2].images_by_answer[VAULT_OVER_BUDGET], 2));
    EXPECT(survey(both, 0, 0, VAULT_FIGURES) == VAULT_DONE && is_all(figures.of, sizeof *figures.of, 0));
    EXPECT(survey(both, 2, 0, 3 * VAULT_FIGURES - 1) == VAULT_BAD_SHELF && is_all(&figures, sizeof figures, FREE));
    EXPECT(survey(more, 2, 0, 3 * VAULT_FIGURES) == VAULT_BAD_SHELF && is_all(&figures, sizeof figures, FREE));
    EXPECT(survey(wrapped, 2, 0, 3 * VAULT_FIGURES) == VAULT_BAD_SHELF && is_all(&figures, sizeof figures, FREE));
}

/* Totals of places by hand: 2^64 - 1 isn't over, 2^64 is; of two chains the longer counts. */
static void totaled(void) {
    memset(&figures, 0, sizeof figures);
    memset(figures.of + 2, FREE, 2 * sizeof *figures.of);
    figures.of[0].bytes.number = UINT64_MAX - 1;
    figures.of[1].bytes.number = 1;
    figures.of[0].sectors.number = UINT64_MAX;
    figures.of[1].sectors.number = 1;
    figures.of[1].files.over = 1;
    figures.of[0].chain.number = 7;
    figures.of[1].chain.number = 5;
    EXPECT(vault_survey_total(figures.numbers, 3 * VAULT_FIGURES - 1, 2) == VAULT_BAD_SHELF && is_all(figures.of + 2, sizeof *figures.of, FREE));
    EXPECT(vault_survey_total(figures.numbers, 3 * VAULT_FIGURES, 2) == VAULT_DONE && is_all(figures.of + 3, sizeof *figures.of, FREE));
    EXPECT(is_figure(figures.of[2].bytes, UINT64_MAX) && is_figure(figures.of[2].chain, 7) && is_figure(figures.of[2].extents, 0));
    EXPECT(figures.of[2].sectors.number == UINT64_MAX && figures.of[2].sectors.over == 1);
    EXPECT(figures.of[2].files.number == UINT64_MAX && figures.of[2].files.over == 1);
}

int main(void) {
    unpack();
    EXPECT(vault_version() == VAULT_VERSION);
    texts();
    records_by_hand();
    written();
    sectors();
    probe();
    unopened();
    label();
    mapped();
    stepped_open();
    components();
    vault_volume v = opened(0), checked = opened(VAULT_CHECKED);
    opened(VAULT_HIGHEST);
    surveyed(v);
    totaled();
    asked(v);
    asked(checked);
    asked(opened(VAULT_CHECKED + VAULT_HIGHEST));
    ruined_volume();
    vault_long_ad directory = found(v, "SHOW", VAULT_CASE_IGNORED, 1, 4), icb = found(v, "SHOW/10.1A", VAULT_CASE_IGNORED, 2, 7);
    ruined_files(checked, directory, icb);
    /* By hand, and by any number but 0. */
    v.mount.checked = 1u << 31;
    asked(v);
    ruined_files(v, directory, icb);
    return 0;
}
