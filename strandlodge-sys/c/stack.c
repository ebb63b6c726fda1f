/* stack.c: how many bytes of stack each call of vault.h takes on the small show of show.h.
 *
 * Each call is made on a stack of its own, which is full of one byte. What it takes reaches from the return address that it finds down to the
 * lowest byte that is another by then; where it finds that address is told by a function that is called in its place. Every query is made once
 * before it counts, since the first call of a function of the C library may go through the loader. Prints each call with the most that a query of
 * it took, and with the most where bodies are checked. */
#include "show.h"

enum { STACK = 1 << 15, PAINT = 0x5c };

/* Work space for a directory at each of 16 levels. */
static uint8_t space[16 * 512];

static _Alignas(16) uint8_t stack[STACK];
static uint8_t *entered;

/* What the queries lend. */
static vault_volume volume;
static vault_long_ad icb;
static const char *path;
static size_t length, room, at;
static uint32_t how, answers[1];
static vault_matching matching;
static uint64_t lengths[1];
static const uint64_t sizes[1] = {OUT};
static uint8_t vault[384 * SECTOR];
static uint64_t figures[2 * VAULT_FIGURES];
static vault_opening opening;
static vault_reading reading;
static const uint8_t *sector;

/* What is called. A reply in memory is asked for by a first argument that is also the result. */
static void (*volatile callee)(void);
__attribute__((naked)) static void tell(void) { __asm__("movq %%rsp, %0\n\tmovq %%rdi, %%rax\n\tret" : "=m"(entered)); }

#define DISC image, length
#define PATH (const uint8_t *)path, strlen(path)
#define CALL(name, ...) \
    static void name##_made(void) { ((__typeof__(name) *)callee)(__VA_ARGS__); }
#define ROW(name) {#name, (void (*)(void))name, name##_made}

CALL(vault_version, )
CALL(vault_probe, DISC)
CALL(vault_open, DISC, how)
CALL(vault_label, DISC, how, out, room)
CALL(vault_lookup, volume, DISC, PATH, matching, space, sizeof space)
CALL(vault_failed, volume, DISC, PATH, matching, space, sizeof space, &at)
CALL(vault_list, volume, DISC, icb, out, room, space, sizeof space)
CALL(vault_show, volume, DISC, matching ? 16 : 1, VAULT_UNLIMITED, out, room, space, sizeof space)
CALL(vault_read, volume, DISC, icb, out, room)
CALL(vault_part, volume, DISC, icb, &at)
CALL(vault_extents, volume, DISC, icb, row, SLOTS)
CALL(vault_runs, volume, DISC, icb, run, RUNS)
CALL(vault_read_path, volume, DISC, PATH, matching, out, room, space, sizeof space)
CALL(vault_read_all, volume, DISC, PATH, matching, out, room, lengths, 1, answers, 1, space, sizeof space)
/* A vault of one file, of as many bytes as there is room for; and without a whole sector for it. */
CALL(vault_write_total, (const uint8_t *)"10.1A", 6, sizes, 1)
CALL(vault_write, (const uint8_t *)"10.1A", 6, sizes, 1, out, OUT, vault, length < IMAGE ? SECTOR : sizeof vault)

/* The steps, from states that have come further from query to query. */
CALL(vault_opening_start, )
CALL(vault_opening_is_wanting, opening)
CALL(vault_opening_wants, opening)
CALL(vault_opening_step, opening, sector, SECTOR)
CALL(vault_reading_start, volume, icb, row, SLOTS)
CALL(vault_reading_is_wanting, reading)
CALL(vault_reading_wants, reading)
CALL(vault_reading_step, reading, sector, SECTOR, row, SLOTS, out, room)
/* SHOW's bytes, which stand in its entry. */
#define AT_HAND image + (START + 4) * SECTOR + ENTRY, number(image + (START + 4) * SECTOR + ENTRY - 4)
CALL(vault_list_bytes, volume, AT_HAND, out, room)
CALL(vault_match, volume, AT_HAND, PATH, matching)
CALL(vault_next_component, PATH, 0)
CALL(vault_measure, volume, DISC, icb)
CALL(vault_survey, image, IMAGE, &(uint64_t){length}, 1, how, VAULT_UNLIMITED, figures, 2 * VAULT_FIGURES, space, sizeof space)
CALL(vault_survey_total, figures, 2 * VAULT_FIGURES, 1)

static const struct {
    const char *name;
    void (*call)(void), (*made)(void);
} calls[] = {ROW(vault_version), ROW(vault_probe), ROW(vault_open), ROW(vault_label), ROW(vault_lookup),   ROW(vault_failed),
             ROW(vault_list),    ROW(vault_show),  ROW(vault_read), ROW(vault_part),  ROW(vault_extents), ROW(vault_runs),
             ROW(vault_read_path), ROW(vault_read_all), ROW(vault_write_total), ROW(vault_write), ROW(vault_opening_start), ROW(vault_opening_is_wanting),
             ROW(vault_opening_wants), ROW(vault_opening_step), ROW(vault_reading_start), ROW(vault_reading_is_wanting), ROW(vault_reading_wants),
             ROW(vault_reading_step), ROW(vault_list_bytes), ROW(vault_match), ROW(vault_next_component), ROW(vault_measure), ROW(vault_survey),
             ROW(vault_survey_total)};

/* Brings both states n steps on, and points at the sector that the one wants which the call is made with. */
static void advance(size_t n, bool opens) {
    opening = vault_opening_start();
    for (size_t i = 0; i < n && vault_opening_is_wanting(opening); i++)
        opening = vault_opening_step(opening, image + vault_opening_wants(opening) * SECTOR, SECTOR);
    reading = vault_reading_start(volume, icb, row, SLOTS);
    for (size_t i = 0; i < n && vault_reading_is_wanting(reading); i++)
        reading = vault_reading_step(reading, image + vault_reading_wants(reading) * SECTOR, SECTOR, row, SLOTS, out, room);
    sector = image + (opens ? vault_opening_wants(opening) : vault_reading_wants(reading)) * SECTOR;
}

/* Makes a call on the painted stack. */
static void make(void (*call)(void), void (*made)(void)) {
    callee = call;
    __asm__ volatile("movq %%rsp, %%rbx\n\tmovq %0, %%rsp\n\tcall *%1\n\tmovq %%rbx, %%rsp"
                     :
                     : "r"(stack + STACK), "r"(made)
                     : "rax", "rbx", "rcx", "rdx", "rsi", "rdi", "r8", "r9", "r10", "r11", "xmm0", "xmm1", "xmm2", "xmm3", "xmm4", "xmm5", "xmm6",
                       "xmm7", "xmm8", "xmm9", "xmm10", "xmm11", "xmm12", "xmm13", "xmm14", "xmm15", "cc", "memory");
}

/* What a query takes. */
static size_t taken(size_t n) {
    size_t low = 0;
    make(calls[n].call, calls[n].made);
    make(tell, calls[n].made);
    memset(stack, PAINT, STACK);
    make(calls[n].call, calls[n].made);
    while (stack[low] == PAINT) low++;
    EXPECT(low > STACK / 4);
    return (size_t)(entered + 8 - (stack + low));
}

/* The most over every query. */
static size_t most(size_t n) {
    static const char *const paths[] = {"", "SHOW", "SHOW/10.1A", "show/11", "SHOW/12.5", "SHOW/9/9"};
    static const uint32_t blocks[] = {3, 4, 5, 7};
    size_t top = 0;
    for (size_t i = 0; i < 6 * 4 * 2 * 2 * 3; i++) {
        path = paths[i % 6];
        icb.location.block = blocks[i / 6 % 4];
        length = i / 24 % 2 ? IMAGE : START * SECTOR;
        room = i / 48 % 2 ? OUT : 0;
        matching = (vault_matching)(i / 96);
        advance(i % 7, strstr(calls[n].name, "opening") != NULL);
        size_t now = taken(n);
        if (now > top) top = now;
    }
    return top;
}

static void tell_number(size_t n) {
    char text[2] = {(char)('0' + n % 10), 0};
    if (n > 9) tell_number(n / 10);
    say(1, text);
}

/* Has the volume opened so, and asked. */
static void choose(uint32_t chosen) {
    vault_opened opened = vault_open(image, IMAGE, chosen);
    EXPECT(opened.answer == VAULT_DONE);
    how = chosen;
    volume = opened.volume;
    icb = volume.root;
}

int main(void) {
    unpack();
    for (size_t n = 0; n < sizeof calls / sizeof *calls; n++) {
        say(1, calls[n].name);
        for (uint32_t chosen = 0; chosen <= VAULT_CHECKED; chosen += VAULT_CHECKED) {
            choose(chosen);
            say(1, " ");
            tell_number(most(n));
        }
        say(1, "\n");
    }
    return 0;
}
