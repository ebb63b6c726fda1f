/* port.c: the calls of vault.h and records.h, made for a program at the other end of a pipe.
 *
 * The archives are x86-64 code. On another processor `compare` can't link them, so it runs this program under an emulator and asks it.
 * Requests come on standard input, answers go to standard output; numbers are little-endian and nothing is padded.
 *
 *   'I' noise kind (1 byte), noise seed (4), packed length (4), packed image    the image that is asked about from now on, as
 *                                                                               docs/COMPARING.md packs it
 *   'Q' call (1), in noise (1), salt (1),                                       a query; with `in noise`, on an image that holds
 *       volume (95), ICB (17), room (4), work (4), how (4), matching (4),       the kept sectors alone, and noise in all others
 *       places of the lengths (4) and of the answers (4), levels (4), most (8),
 *       path length (4), path, numbers of the shelf (4), each (8), images (8),
 *       kept sectors (4), each sector's number (4)
 *   'T' times (4), and a query as behind 'Q'                                    the query so many times over: the answer is the
 *                                                                               nanoseconds (8); call 15 copies `room` bytes,
 *                                                                               and 16 reads each path of a list by itself, or
 *                                                                               lists each directory of a show by itself
 *   'S' a query as behind 'Q', slots (4), steps at most (4),                    an opening or a read of the image, a sector at a
 *       whether a sector is denied (1), which (8), length of a slice (4)        time; the slice says that a sector can't be had
 *   'R' call (1), salt (1), room (4), length (4), bytes                         a call on a raw record
 *   'F'                                                                         the answers to all queries so far are written
 *
 *   an answer: answer (8), count (8), length (8), place (8), volume (95), ICB (17), state (1), written length (4), written bytes,
 *       paths of a list (4), the length (8) and the answer (4) of each
 *   an answer to 'S': answer (8), count (8), length (8), volume (95), state (1), written length (4), written bytes, steps (4), the sector (8)
 *       and the bytes that have arrived (8) of each
 *   an answer to 'R': state (1), length (4), bytes
 *
 * An ICB is length (4), type (1), block (4), partition (2), implementation use (6); a volume is start (4), partition (2), checked (4), maps (4),
 * volumes, numbers (four of 2 each), starts (four of 4), root (17), label (32). Room counts bytes, slots for the extent list, and numbers for figures.
 * The numbers of the shelf are the lengths of a survey's images, which are lent in the row of lengths, or the row of a total, which is the output.
 * Answers are held back until 'F', so neither side waits for the other while both write.
 *
 * A lent buffer comes full of a pattern that tells where each byte stands, with GUARD bytes of it in front and behind. The state has a
 * bit for each thing that held: 1 the guards of the output, 2 its bytes behind the answer (all of them, if refused), 4 the guards of the
 * work space, 8 the work space all zero, 16 the guards of the rows, 32 their places behind the answer. The written bytes are the front of the output, as many as the reply's length says.
 *
 * Behind 'S' the state's bits are 1 the guards of the output, 2 its bytes behind what arrived, 4 the guards of the row, 8 the row all zero, 16 that
 * a step behind the end changed nothing.
 *
 * A raw record is every field of it in order. What is parsed comes as bytes, and the answer is the number (8) and the record; what is
 * encoded comes as the record, and the answer is bytes; a name comes as bytes, and the answer is the number (8), the length (8) and the
 * written bytes; for the place check a tag comes with a sector (8) and a block (4) behind it, and for the body check with the bytes at hand, and
 * the answer is 1 (8) for a yes; for a CRC come bytes, and the answer is 0 (8) and the CRC (2). Of the state the first two bits tell.
 */
#include "records.h"
#include "vault.h"

/* What is used of the C library, declared here: the toolchain has its code for x86-64, and no headers. */
extern long read(int fd, void *to, size_t n);
extern long write(int fd, const void *from, size_t n);
extern void *realloc(void *p, size_t n);
extern void *memcpy(void *to, const void *from, size_t n);
extern void *memset(void *to, int byte, size_t n);
extern _Noreturn void exit(int status);
struct timespec {
    long seconds, nanoseconds;
};
extern int clock_gettime(int clock, struct timespec *now);

enum { GUARD = 64, SECTOR = 2048 };
enum { PROBE, OPEN, LABEL, LOOKUP, FAILED, LIST, READ, PART, EXTENTS, READ_PATH, READ_ALL, SHOW, MEASURE, SURVEY, TOTAL, COPY, EACH };

typedef struct {
    uint8_t *at;
    size_t length, room;
} buffer;

typedef struct {
    uint64_t answer, count, length;
    size_t place;
    vault_volume volume;
    vault_long_ad icb;
} outcome;

typedef struct {
    uint8_t call, in_noise, salt;
    vault_volume volume;
    vault_long_ad icb;
    uint32_t room, work, how, matching, lengths, answers, levels, path_length, kept;
    uint64_t most, images;
} query;

static buffer image, noise, replies, lent_out, lent_work, lent_lengths, lent_answers, path, shelf, kept;
static uint8_t noise_kind;
static uint32_t noise_seed;

static void grow(buffer *b, size_t n) {
    if (n > b->room) {
        b->room = n + n / 2 + 4096;
        b->at = realloc(b->at, b->room);
        if (!b->at) exit(4);
    }
}

/* ---- the pipe */

static uint8_t inward[1 << 16];
static size_t inward_at, inward_end;

/* Whether n bytes came; none at all is the end of the work, and fewer than n a broken pipe. */
static bool take(void *to, size_t n) {
    uint8_t *p = to;
    size_t had = 0;
    while (had < n) {
        if (inward_at == inward_end) {
            long got = read(0, inward, sizeof inward);
            if (got <= 0) {
                if (had) exit(5);
                return false;
            }
            inward_at = 0;
            inward_end = (size_t)got;
        }
        size_t here = inward_end - inward_at < n - had ? inward_end - inward_at : n - had;
        memcpy(p + had, inward + inward_at, here);
        inward_at += here;
        had += here;
    }
    return true;
}

static uint64_t take_number(size_t n) {
    uint64_t v = 0;
    if (!take(&v, n)) exit(5);
    return v;
}

static void take_all(buffer *b, size_t n) {
    grow(b, n);
    b->length = n;
    if (n && !take(b->at, n)) exit(5);
}

static void give(const void *from, size_t n) {
    grow(&replies, replies.length + n);
    memcpy(replies.at + replies.length, from, n);
    replies.length += n;
}

static void give_number(uint64_t v, size_t n) { give(&v, n); }

static void flush(void) {
    size_t done = 0;
    while (done < replies.length) {
        long n = write(1, replies.at + done, replies.length - done);
        if (n <= 0) exit(5);
        done += (size_t)n;
    }
    replies.length = 0;
}

/* ---- records on the pipe */

static vault_long_ad take_icb(void) {
    vault_long_ad a;
    a.length = (uint32_t)take_number(4);
    a.extent_type = (uint8_t)take_number(1);
    a.location.block = (uint32_t)take_number(4);
    a.location.partition_ref = (uint16_t)take_number(2);
    if (!take(a.implementation_use, 6)) exit(5);
    return a;
}

static void give_icb(vault_long_ad a) {
    give_number(a.length, 4);
    give_number(a.extent_type, 1);
    give_number(a.location.block, 4);
    give_number(a.location.partition_ref, 2);
    give(a.implementation_use, 6);
}

static vault_volume take_volume(void) {
    vault_volume v = {.mount = {.maps = 0}};
    v.mount.start = (uint32_t)take_number(4);
    v.mount.partition = (uint16_t)take_number(2);
    v.mount.checked = (uint32_t)take_number(4);
    v.mount.maps = (uint32_t)take_number(4);
    for (size_t i = 0; i < 4; i++) v.mount.volumes[i] = (uint16_t)take_number(2);
    for (size_t i = 0; i < 4; i++) v.mount.numbers[i] = (uint16_t)take_number(2);
    for (size_t i = 0; i < 4; i++) v.mount.starts[i] = (uint32_t)take_number(4);
    v.root = take_icb();
    if (!take(v.label, 32)) exit(5);
    return v;
}

static void give_volume(vault_volume v) {
    give_number(v.mount.start, 4);
    give_number(v.mount.partition, 2);
    give_number(v.mount.checked, 4);
    give_number(v.mount.maps, 4);
    for (size_t i = 0; i < 4; i++) give_number(v.mount.volumes[i], 2);
    for (size_t i = 0; i < 4; i++) give_number(v.mount.numbers[i], 2);
    for (size_t i = 0; i < 4; i++) give_number(v.mount.starts[i], 4);
    give_icb(v.root);
    give(v.label, 32);
}

/* ---- images */

static uint32_t number_at(const uint8_t *p) {
    uint32_t v;
    memcpy(&v, p, 4);
    return v;
}

/* The noise of one sector: bytes at random, or another sector of the image, which looks like something. */
static void make_noise(size_t sector) {
    size_t from = sector * SECTOR, sectors = (image.length + SECTOR - 1) / SECTOR;
    size_t n = image.length - from < SECTOR ? image.length - from : SECTOR;
    if (noise_kind) {
        size_t other = (sector + noise_seed % sectors) % sectors * SECTOR;
        if (image.length - other < n) other = 0;
        memcpy(noise.at + from, image.at + other, n);
        return;
    }
    uint64_t x = (noise_seed + 1) * 0x9e3779b97f4a7c15u ^ (sector + 1) * 0xbf58476d1ce4e5b9u;
    for (size_t i = 0; i < n; i += 8) {
        x ^= x << 13;
        x ^= x >> 7;
        x ^= x << 17;
        memcpy(noise.at + from + i, &x, n - i < 8 ? n - i : 8);
    }
}

static void load_image(void) {
    static buffer packed;
    noise_kind = (uint8_t)take_number(1);
    noise_seed = (uint32_t)take_number(4);
    take_all(&packed, take_number(4));
    image.length = number_at(packed.at);
    noise.length = image.length;
    grow(&image, image.length + 1);
    grow(&noise, noise.length + 1);
    memset(image.at, 0, image.length);
    size_t at = 8;
    for (uint32_t runs = number_at(packed.at + 4); runs; runs--) {
        uint32_t n = number_at(packed.at + at + 4);
        memcpy(image.at + number_at(packed.at + at), packed.at + at + 8, n);
        at += 8 + n;
    }
    for (size_t s = 0; s * SECTOR < image.length; s++) make_noise(s);
}

/* The kept sectors come into the noise for one query, and go again. */
static void keep(bool real) {
    for (size_t i = 0; i < kept.length; i += 4) {
        size_t s = number_at(kept.at + i), from = s * SECTOR;
        if (from >= image.length) continue;
        size_t n = image.length - from < SECTOR ? image.length - from : SECTOR;
        if (real)
            memcpy(noise.at + from, image.at + from, n);
        else
            make_noise(s);
    }
}

/* ---- lent buffers */

static uint8_t pattern(size_t i, uint8_t salt) { return (uint8_t)(i * 131 + salt + (i >> 8)) | 1; }

static uint8_t *lend(buffer *b, size_t n, uint8_t salt) {
    grow(b, n + 2 * GUARD);
    b->length = n;
    for (size_t i = 0; i < n + 2 * GUARD; i++) b->at[i] = pattern(i, salt);
    return b->at + GUARD;
}

static bool as_it_came(const buffer *b, size_t from, size_t end, uint8_t salt) {
    for (size_t i = from; i < end; i++)
        if (b->at[i] != pattern(i, salt)) return false;
    return true;
}

/* How many paths a list has. */
static size_t items(const query *q) {
    size_t n = 1;
    for (size_t i = 0; i < q->path_length; i++) n += path.at[i] == 0;
    return n;
}

/* Of a row, from so many of its places on: the state's bits. */
static uint8_t row_state(const buffer *row, size_t front, uint8_t salt) {
    size_t end = GUARD + row->length;
    uint8_t held = 0;
    if (as_it_came(row, 0, GUARD, salt) && as_it_came(row, end, end + GUARD, salt)) held |= 16;
    if (as_it_came(row, GUARD + (front < row->length ? front : row->length), end, salt)) held |= 32;
    return held;
}

static uint8_t state(const query *q, size_t written, size_t rows) {
    const buffer *o = &lent_out, *w = &lent_work;
    size_t end = GUARD + o->length;
    uint8_t held = 0;
    if (as_it_came(o, 0, GUARD, q->salt) && as_it_came(o, end, end + GUARD, q->salt)) held |= 1;
    if (as_it_came(o, GUARD + written, end, q->salt)) held |= 2;
    end = GUARD + w->length;
    if (as_it_came(w, 0, GUARD, q->salt) && as_it_came(w, end, end + GUARD, q->salt)) held |= 4;
    bool zero = true;
    for (size_t i = GUARD; i < end; i++) zero &= w->at[i] == 0;
    if (zero) held |= 8;
    return held | (row_state(&lent_lengths, rows * 8, q->salt) & row_state(&lent_answers, rows * 4, q->salt));
}

/* ---- the calls */

static void from_reply(outcome *o, vault_reply r) {
    o->answer = r.answer;
    o->count = r.count;
    o->length = r.length;
}

/* Each path of a list by itself, in turn. */
static void each(const query *q, const uint8_t *disc, size_t n, uint8_t *out, uint8_t *work) {
    for (size_t from = 0, end; from <= q->path_length; from = end + 1) {
        for (end = from; end < q->path_length && path.at[end]; end++) {}
        vault_read_path(q->volume, disc, n, path.at + from, end - from, q->matching, out, q->room, work, q->work);
    }
}

/* The ICB in a listing's record. */
static vault_long_ad recorded(const uint8_t *b) {
    uint32_t raw = (uint32_t)b[0] | (uint32_t)b[1] << 8 | (uint32_t)b[2] << 16 | (uint32_t)b[3] << 24;
    vault_long_ad icb;
    memset(&icb, 0, sizeof icb);
    icb.length = raw & 0x3fffffff;
    icb.extent_type = (uint8_t)(raw >> 30);
    icb.location.block = (uint32_t)b[4] | (uint32_t)b[5] << 8 | (uint32_t)b[6] << 16 | (uint32_t)b[7] << 24;
    icb.location.partition_ref = (uint16_t)(b[8] | b[9] << 8);
    memcpy(icb.implementation_use, b + 10, 6);
    return icb;
}

/* Each directory of a show by itself: its listing stands behind those of the directories above it. */
static void list_each(const query *q, const uint8_t *disc, size_t n, vault_long_ad icb, uint32_t levels, uint8_t *out, size_t room, uint8_t *work) {
    vault_reply r = vault_list(q->volume, disc, n, icb, out, room, work, q->work);
    for (size_t at = 0; at < r.length; at += 21 + (size_t)(out[at + 19] | out[at + 20] << 8)) {
        if (out[at + 2] && levels > 1) list_each(q, disc, n, recorded(out + at + 3), levels - 1, out + r.length, room - r.length, work);
    }
}

static outcome call(const query *q, const uint8_t *disc, size_t n, uint8_t *out, uint8_t *work) {
    outcome o;
    memset(&o, 0, sizeof o);
    const uint8_t *p = path.at;
    size_t length = q->path_length;
    switch (q->call) {
    case PROBE: o.answer = vault_probe(disc, n); break;
    case OPEN: {
        vault_opened r = vault_open(disc, n, q->how);
        o.answer = r.answer;
        o.count = r.count;
        o.volume = r.volume;
        break;
    }
    case LABEL: from_reply(&o, vault_label(disc, n, q->how, out, q->room)); break;
    case LOOKUP: {
        vault_found r = vault_lookup(q->volume, disc, n, p, length, q->matching, work, q->work);
        o.answer = r.answer;
        o.count = r.count;
        o.icb = r.icb;
        break;
    }
    case FAILED: from_reply(&o, vault_failed(q->volume, disc, n, p, length, q->matching, work, q->work, &o.place)); break;
    case LIST: from_reply(&o, vault_list(q->volume, disc, n, q->icb, out, q->room, work, q->work)); break;
    case READ: from_reply(&o, vault_read(q->volume, disc, n, q->icb, out, q->room)); break;
    case PART: from_reply(&o, vault_part(q->volume, disc, n, q->icb, &o.place)); break;
    case EXTENTS: from_reply(&o, vault_extents(q->volume, disc, n, q->icb, (vault_extent *)(void *)out, q->room)); break;
    case READ_PATH:
        from_reply(&o, vault_read_path(q->volume, disc, n, p, length, q->matching, out, q->room, work, q->work));
        break;
    case READ_ALL: {
        uint64_t *lengths = (uint64_t *)(void *)(lent_lengths.at + GUARD);
        uint32_t *answers = (uint32_t *)(void *)(lent_answers.at + GUARD);
        from_reply(&o, vault_read_all(q->volume, disc, n, p, length, q->matching, out, q->room, lengths, q->lengths, answers, q->answers,
                                      work, q->work));
        break;
    }
    case SHOW: from_reply(&o, vault_show(q->volume, disc, n, q->levels, q->most, out, q->room, work, q->work)); break;
    case MEASURE: from_reply(&o, vault_measure(q->volume, disc, n, q->icb)); break;
    case SURVEY: {
        const uint64_t *lengths = (const uint64_t *)(const void *)(lent_lengths.at + GUARD);
        o.answer = vault_survey(disc, n, lengths, q->lengths, q->how, q->most, (uint64_t *)(void *)out, q->room, work, q->work);
        o.length = o.answer ? 0 : VAULT_FIGURES * ((uint64_t)q->lengths + 1);
        break;
    }
    case TOTAL: o.answer = vault_survey_total((uint64_t *)(void *)out, q->room, q->images); break;
    case EACH:
        if (q->levels) list_each(q, disc, n, q->volume.root, q->levels, out, q->room, work);
        else each(q, disc, n, out, work);
        break;
    case COPY: memcpy(out, disc, q->room); break;
    default: exit(6);
    }
    return o;
}

/* The bytes of what room counts. */
static size_t unit(const query *q) {
    return q->call == EXTENTS ? sizeof(vault_extent) : q->call == SURVEY || q->call == TOTAL ? sizeof(uint64_t) : 1;
}

/* How many bytes of the lent output a reply says were written. The row of a total came with figures, and is looked at whole. */
static size_t written(const query *q, const outcome *o) {
    if (q->call == TOTAL) return lent_out.length;
    if (q->call == FAILED || q->call == PART || q->call == MEASURE || o->answer) return 0;
    size_t n = o->length * unit(q);
    return n < lent_out.length ? n : lent_out.length;
}

static query take_query(void) {
    query q;
    q.call = (uint8_t)take_number(1);
    q.in_noise = (uint8_t)take_number(1);
    q.salt = (uint8_t)take_number(1);
    q.volume = take_volume();
    q.icb = take_icb();
    q.room = (uint32_t)take_number(4);
    q.work = (uint32_t)take_number(4);
    q.how = (uint32_t)take_number(4);
    q.matching = (uint32_t)take_number(4);
    q.lengths = (uint32_t)take_number(4);
    q.answers = (uint32_t)take_number(4);
    q.levels = (uint32_t)take_number(4);
    q.most = take_number(8);
    q.path_length = (uint32_t)take_number(4);
    grow(&path, q.path_length + 1);
    take_all(&path, q.path_length);
    take_all(&shelf, take_number(4) * sizeof(uint64_t));
    q.images = take_number(8);
    q.kept = (uint32_t)take_number(4);
    take_all(&kept, (size_t)q.kept * 4);
    return q;
}

static void lend_rows(const query *q) {
    lend(&lent_lengths, (size_t)q->lengths * 8, q->salt);
    lend(&lent_answers, (size_t)q->answers * 4, q->salt);
    buffer *with = q->call == SURVEY ? &lent_lengths : q->call == TOTAL ? &lent_out : 0;
    if (with && shelf.length > with->length) exit(6);
    if (with && shelf.length) memcpy(with->at + GUARD, shelf.at, shelf.length);
}

/* Whether a survey left the lengths of its images as they came. */
static bool has_lengths(void) {
    for (size_t i = 0; i < shelf.length; i++)
        if (lent_lengths.at[GUARD + i] != shelf.at[i]) return false;
    return true;
}

/* How many places of the rows aren't as they came: those of a list that is answered, and the lengths that a survey finds there. */
static size_t row_places(const query *q, const outcome *o) {
    if (q->call == READ_ALL && !o->answer) return items(q);
    return q->call == SURVEY && has_lengths() ? q->lengths : 0;
}

static void answer(void) {
    query q = take_query();
    uint8_t *out = lend(&lent_out, q.room * unit(&q), q.salt);
    uint8_t *work = lend(&lent_work, q.work, q.salt);
    lend_rows(&q);
    if (q.in_noise) keep(true);
    outcome o = call(&q, q.in_noise ? noise.at : image.at, image.length, out, work);
    if (q.in_noise) keep(false);
    size_t n = written(&q, &o), rows = row_places(&q, &o);

    give_number(o.answer, 8);
    give_number(o.count, 8);
    give_number(o.length, 8);
    give_number(o.place, 8);
    give_volume(o.volume);
    give_icb(o.icb);
    give_number(state(&q, n, rows), 1);
    give_number(n, 4);
    give(out, n);
    if (rows > q.lengths) rows = q.lengths;
    if (rows > q.answers) rows = q.answers;
    give_number(rows, 4);
    for (size_t i = 0; i < rows; i++) {
        give(lent_lengths.at + GUARD + i * 8, 8);
        give(lent_answers.at + GUARD + i * 4, 4);
    }
}

/* ---- a sector at a time */

typedef struct {
    uint32_t slots, most, wrong;
    bool denies;
    uint64_t denied;
} walk;

static buffer wanted;

/* Where a sector stands, and its length; another length where it can't be had. */
static size_t sector_at(const walk *w, uint64_t number, const uint8_t **from) {
    static const uint8_t wrong[2 * SECTOR];
    bool there = number < image.length / SECTOR && !(w->denies && number == w->denied);
    *from = there ? image.at + number * SECTOR : wrong;
    return there ? SECTOR : w->wrong;
}

static void note(uint64_t number, uint64_t arrived) {
    uint64_t both[2] = {number, arrived};
    grow(&wanted, wanted.length + sizeof both);
    memcpy(wanted.at + wanted.length, both, sizeof both);
    wanted.length += sizeof both;
}

static bool same_opening(vault_opening a, vault_opening b) {
    return a.phase == b.phase && a.at == b.at && a.left == b.left && a.opened.answer == b.opened.answer && a.opened.count == b.opened.count;
}

static outcome open_by_steps(const walk *w, uint8_t *held) {
    vault_opening s = vault_opening_start();
    const uint8_t *from;
    for (uint32_t i = 0; i < w->most && vault_opening_is_wanting(s); i++) {
        uint64_t number = vault_opening_wants(s);
        size_t n = sector_at(w, number, &from);
        s = vault_opening_step(s, from, n);
        note(number, 0);
    }
    size_t n = sector_at(w, 0, &from);
    bool stays = same_opening(s, vault_opening_step(s, from, n)) && same_opening(s, vault_opening_step(s, from, 0));
    *held = 15 | (uint8_t)(stays << 4);
    outcome o;
    memset(&o, 0, sizeof o);
    o.answer = s.opened.answer;
    o.count = s.opened.count;
    o.volume = s.opened.volume;
    return o;
}

static bool same_reading(vault_reading a, vault_reading b) {
    return a.phase == b.phase && a.at == b.at && a.left == b.left && a.missing == b.missing && a.scan.listed == b.scan.listed &&
           a.answer == b.answer && a.count == b.count && a.length == b.length;
}

static outcome read_by_steps(const query *q, const walk *w, uint8_t *out, uint8_t *held) {
    vault_extent *row = (vault_extent *)(void *)lend(&lent_work, w->slots * sizeof(vault_extent), q->salt);
    vault_reading s = vault_reading_start(q->volume, q->icb, row, w->slots);
    const uint8_t *from;
    for (uint32_t i = 0; i < w->most && vault_reading_is_wanting(s); i++) {
        uint64_t number = vault_reading_wants(s);
        size_t n = sector_at(w, number, &from);
        s = vault_reading_step(s, from, n, row, w->slots, out, q->room);
        note(number, s.length);
    }
    size_t n = sector_at(w, 0, &from);
    bool stays = same_reading(s, vault_reading_step(s, from, n, row, w->slots, out, q->room)) &&
                 same_reading(s, vault_reading_step(s, from, 0, row, w->slots, out, q->room));
    outcome o;
    memset(&o, 0, sizeof o);
    o.answer = s.answer;
    o.count = s.count;
    o.length = s.length;
    *held = (state(q, s.length < q->room ? s.length : q->room, 0) & 15) | (uint8_t)(stays << 4);
    return o;
}

static void answer_steps(void) {
    query q = take_query();
    walk w;
    w.slots = (uint32_t)take_number(4);
    w.most = (uint32_t)take_number(4);
    w.denies = take_number(1);
    w.denied = take_number(8);
    w.wrong = (uint32_t)take_number(4);
    if (w.wrong > 2 * SECTOR) exit(6);
    uint8_t *out = lend(&lent_out, q.room, q.salt), held = 0;
    lend_rows(&q);
    wanted.length = 0;
    outcome o = q.call == OPEN ? open_by_steps(&w, &held) : read_by_steps(&q, &w, out, &held);
    size_t n = o.length < q.room ? o.length : q.room;
    give_number(o.answer, 8);
    give_number(o.count, 8);
    give_number(o.length, 8);
    give_volume(o.volume);
    give_number(held, 1);
    give_number(n, 4);
    give(out, n);
    give_number(wanted.length / 16, 4);
    give(wanted.at, wanted.length);
}

/* ---- the raw records */

typedef struct {
    size_t at, size;
} field;

#define F(type, member) {offsetof(type, member), sizeof(((type *)0)->member)}
#define EXTENT(type, m) F(type, m.length), F(type, m.location)
#define ADDRESS(type, m) F(type, m.block), F(type, m.partition_ref)
#define LONG(type, m) F(type, m.length), F(type, m.extent_type), ADDRESS(type, m.location), F(type, m.implementation_use)
#define TAG(type, m) \
    F(type, m.id), F(type, m.descriptor_version), F(type, m.serial_number), F(type, m.crc), F(type, m.crc_length), F(type, m.location)
#define ICB_TAG(type, m) \
    F(type, m.prior_recorded_entries), F(type, m.strategy_type), F(type, m.strategy_parameter), F(type, m.max_entries), \
        F(type, m.file_type), ADDRESS(type, m.parent_icb), F(type, m.flags)
#define SEQUENCE_NUMBER(type) F(type, value.volume_descriptor_sequence_number)

/* The fields of a record, those of `answer` first. */
#define FIELDS(name, ...) static const field name##_fields[] = {F(records_##name##_answer, answer), __VA_ARGS__};
#define V(name, member) F(records_##name##_answer, value.member)

FIELDS(extent_ad, EXTENT(records_extent_ad_answer, value))
FIELDS(short_ad, V(short_ad, length), V(short_ad, extent_type), V(short_ad, block_location))
FIELDS(lb_addr, ADDRESS(records_lb_addr_answer, value))
FIELDS(long_ad, LONG(records_long_ad_answer, value))
FIELDS(ext_ad, V(ext_ad, length), V(ext_ad, extent_type), V(ext_ad, recorded_length), V(ext_ad, information_length),
       ADDRESS(records_ext_ad_answer, value.location), V(ext_ad, implementation_use))
FIELDS(tag, TAG(records_tag_answer, value))
FIELDS(aed, TAG(records_aed_answer, value.tag), V(aed, previous_allocation_extent_location), V(aed, length_of_allocation_descriptors))
FIELDS(anchor, TAG(records_anchor_answer, value.tag), EXTENT(records_anchor_answer, value.main_volume_descriptor_sequence),
       EXTENT(records_anchor_answer, value.reserve_volume_descriptor_sequence))
FIELDS(primary_volume, TAG(records_primary_volume_answer, value.tag), SEQUENCE_NUMBER(records_primary_volume_answer),
       V(primary_volume, primary_volume_descriptor_number), V(primary_volume, volume_identifier))
FIELDS(partition, TAG(records_partition_answer, value.tag), SEQUENCE_NUMBER(records_partition_answer), V(partition, partition_flags),
       V(partition, partition_number), V(partition, partition_starting_location), V(partition, partition_length))
FIELDS(logical_volume, TAG(records_logical_volume_answer, value.tag), SEQUENCE_NUMBER(records_logical_volume_answer),
       V(logical_volume, logical_volume_identifier), V(logical_volume, logical_block_size),
       LONG(records_logical_volume_answer, value.file_set_descriptor_location), V(logical_volume, map_table_length),
       V(logical_volume, number_of_partition_maps), V(logical_volume, partition_maps))
FIELDS(file_set, TAG(records_file_set_answer, value.tag), LONG(records_file_set_answer, value.root_directory_icb))
FIELDS(icb_tag, ICB_TAG(records_icb_tag_answer, value))
FIELDS(file_entry, TAG(records_file_entry_answer, value.tag), ICB_TAG(records_file_entry_answer, value.icb_tag), V(file_entry, uid),
       V(file_entry, gid), V(file_entry, permissions), V(file_entry, file_link_count), V(file_entry, record_format),
       V(file_entry, record_display_attributes), V(file_entry, record_length), V(file_entry, information_length),
       V(file_entry, logical_blocks_recorded), V(file_entry, has_object_size), V(file_entry, object_size),
       V(file_entry, length_of_extended_attributes), V(file_entry, length_of_allocation_descriptors), V(file_entry, kind),
       V(file_entry, area_at), V(file_entry, area_length))
FIELDS(file_identifier, TAG(records_file_identifier_answer, value.tag), V(file_identifier, file_version_number),
       V(file_identifier, file_characteristics), LONG(records_file_identifier_answer, value.icb), V(file_identifier, name_at),
       V(file_identifier, name_length), V(file_identifier, name_size), V(file_identifier, total_size))

/* In the order of compare's raw calls. */
#define PARSED(X) \
    X(extent_ad) X(short_ad) X(lb_addr) X(long_ad) X(ext_ad) X(tag) X(aed) X(anchor) X(primary_volume) X(partition) X(logical_volume) \
        X(file_set) X(icb_tag) X(file_entry) X(file_identifier)
#define ENCODED(X) X(extent_ad) X(short_ad) X(lb_addr) X(long_ad) X(ext_ad) X(tag) X(aed)
#define PARSE_NUMBER(name) PARSE_##name,
#define ENCODE_NUMBER(name) ENCODE_##name,
enum { PARSED(PARSE_NUMBER) DECODE_DSTRING, DECODE_FIELD, TAG_IN_PLACE, TAG_BODY, CRC, ENCODED(ENCODE_NUMBER) };

static buffer lent_in, said;

static void say(const void *from, size_t n) {
    grow(&said, said.length + n);
    memcpy(said.at + said.length, from, n);
    said.length += n;
}

static void say_fields(const void *record, const field *fields, size_t n) {
    for (size_t i = 0; i < n; i++) say((const uint8_t *)record + fields[i].at, fields[i].size);
}

/* The fields of a record but for its answer, from bytes. */
static void fill_fields(void *record, const field *fields, size_t n, const uint8_t *from, size_t length) {
    for (size_t i = 1; i < n; i++) {
        if (length < fields[i].size) exit(5);
        memcpy((uint8_t *)record + fields[i].at, from, fields[i].size);
        from += fields[i].size;
        length -= fields[i].size;
    }
}

/* How many bytes of the lent output were written. */
static size_t say_written(records_written r, const uint8_t *out) {
    size_t n = r.answer ? 0 : r.length < lent_out.length ? r.length : lent_out.length;
    say(&r.answer, 8);
    say(&r.length, 8);
    say(out, n);
    return n;
}

#define COUNT(name) (sizeof name##_fields / sizeof *name##_fields)
#define PARSE(name) \
    case PARSE_##name: { \
        records_##name##_answer r = records_parse_##name(in, n); \
        say_fields(&r, name##_fields, COUNT(name)); \
        return 0; \
    }
#define ENCODE(name) \
    case ENCODE_##name: { \
        records_##name##_answer r; \
        fill_fields(&r, name##_fields, COUNT(name), in, n); \
        records_##name##_bytes b = records_encode_##name(r.value); \
        say(b.bytes, sizeof b.bytes); \
        return 0; \
    }

/* A tag, and behind it a sector and a block; a yes is 1. */
static size_t say_in_place(const uint8_t *in, size_t n) {
    records_tag_answer tag;
    uint64_t sector, said_so;
    uint32_t block;
    if (n < sizeof sector + sizeof block) exit(5);
    size_t rest = n - sizeof sector - sizeof block;
    fill_fields(&tag, tag_fields, COUNT(tag), in, rest);
    memcpy(&sector, in + rest, sizeof sector);
    memcpy(&block, in + rest + sizeof sector, sizeof block);
    said_so = records_tag_in_place(tag.value, sector, block);
    say(&said_so, sizeof said_so);
    return 0;
}

/* A tag, and behind it the bytes at hand from the descriptor on; a yes is 1. */
static size_t say_body(const uint8_t *in, size_t n) {
    enum { FLAT = 14 };
    records_tag_answer tag;
    if (n < FLAT) exit(5);
    fill_fields(&tag, tag_fields, COUNT(tag), in, FLAT);
    uint64_t said_so = records_tag_body(tag.value, in + FLAT, n - FLAT);
    say(&said_so, sizeof said_so);
    return 0;
}

static size_t say_crc(const uint8_t *in, size_t n) {
    uint64_t done = 0;
    uint16_t crc = records_crc(in, n);
    say(&done, sizeof done);
    say(&crc, sizeof crc);
    return 0;
}

static size_t raw_call(uint8_t which, const uint8_t *in, size_t n, uint8_t *out, size_t room) {
    switch (which) {
        PARSED(PARSE)
        ENCODED(ENCODE)
    case DECODE_DSTRING: return say_written(records_decode_dstring(in, n, out, room), out);
    case DECODE_FIELD: return say_written(records_decode_dstring_field(in, n, out, room), out);
    case TAG_IN_PLACE: return say_in_place(in, n);
    case TAG_BODY: return say_body(in, n);
    case CRC: return say_crc(in, n);
    default: exit(6);
    }
}

static void answer_raw(void) {
    uint8_t which = (uint8_t)take_number(1), salt = (uint8_t)take_number(1);
    size_t room = take_number(4), n = take_number(4);
    uint8_t *in = lend(&lent_in, n, salt), *out = lend(&lent_out, room, salt);
    if (n && !take(in, n)) exit(5);
    said.length = 0;
    size_t written = raw_call(which, in, n, out, room), end = GUARD + room;
    uint8_t held = as_it_came(&lent_out, 0, GUARD, salt) && as_it_came(&lent_out, end, end + GUARD, salt);
    if (as_it_came(&lent_out, GUARD + written, end, salt)) held |= 2;
    give_number(held, 1);
    give_number(said.length, 4);
    give(said.at, said.length);
}

static uint64_t now(void) {
    struct timespec t;
    clock_gettime(1, &t);
    return (uint64_t)t.seconds * 1000000000 + (uint64_t)t.nanoseconds;
}

/* The memory is lent once, so that it is warm from the second time on. */
static void time_query(void) {
    uint32_t times = (uint32_t)take_number(4);
    query q = take_query();
    uint8_t *out = lend(&lent_out, q.room * unit(&q), q.salt);
    uint8_t *work = lend(&lent_work, q.work, q.salt);
    lend_rows(&q);
    call(&q, image.at, image.length, out, work);
    uint64_t began = now();
    for (uint32_t i = 0; i < times; i++) call(&q, image.at, image.length, out, work);
    give_number(now() - began, 8);
}

int main(void) {
    uint8_t what;
    while (take(&what, 1)) {
        switch (what) {
        case 'I': load_image(); break;
        case 'Q': answer(); break;
        case 'S': answer_steps(); break;
        case 'R': answer_raw(); break;
        case 'T': time_query(); break;
        case 'F': flush(); break;
        default: return 6;
        }
    }
    return 0;
}
