/* Writes a file of a disc through a window of one sector, with no image in memory: window IMAGE PATH > FILE. */
#include <stdio.h>
#include <stdlib.h>
#include <string.h>
#include <vault.h>

static FILE *disc;
static uint8_t sector[VAULT_SECTOR_SIZE];

/* A directory's bytes, which are wanted all at once. */
static uint8_t *bytes;
static size_t length;

static void *longer(void *from, size_t size) {
    void *to = realloc(from, size);
    if (!to) exit(71);
    return to;
}

/* How many bytes of a sector could be had: all of them, or none. */
static size_t fetched(uint64_t at) {
    if (fseek(disc, (long)(at * VAULT_SECTOR_SIZE), SEEK_SET)) return 0;
    return fread(sector, 1, sizeof sector, disc) == sizeof sector ? sizeof sector : 0;
}

static void keep(const uint8_t *from, size_t n) {
    bytes = longer(bytes, length + n + 1);
    memcpy(bytes + length, from, n);
    length += n;
}

static void print(const uint8_t *from, size_t n) {
    if (fwrite(from, 1, n, stdout) != n) exit(74);
}

/* Reads a file, and hands its bytes on as they arrive: the window is free again before each step. */
static uint64_t pass(vault_volume volume, vault_long_ad icb, void (*on)(const uint8_t *, size_t)) {
    static uint8_t window[VAULT_SECTOR_SIZE];
    vault_extent *row = NULL;
    size_t slots = 0;
    vault_reading reading = vault_reading_start(volume, icb, row, slots);
    while (vault_reading_is_wanting(reading)) {
        if (slots - reading.scan.listed < 256) row = longer(row, (slots = 2 * slots + 256) * sizeof *row);
        size_t n = fetched(vault_reading_wants(reading));
        reading = vault_reading_step(reading, sector, n, row, slots, window, sizeof window);
        on(window, reading.length);
        reading.length = 0;
    }
    free(row);
    return reading.answer;
}

/* The ICB of a path, a component at a time. */
static uint64_t look_up(vault_volume volume, const uint8_t *path, size_t n, vault_long_ad *icb) {
    vault_component c = vault_next_component(path, n, 0);
    vault_named found = {VAULT_DONE, true, volume.root, true};
    for (; c.length; c = vault_next_component(path, n, c.at + c.length)) {
        if (!found.directory) return VAULT_NOT_BLURAY;
        length = 0;
        uint64_t answer = pass(volume, found.icb, keep);
        if (answer != VAULT_DONE) return answer;
        found = vault_match(volume, bytes, length, path + c.at, c.length, VAULT_AS_WRITTEN);
        if (found.answer != VAULT_DONE) return found.answer;
        if (!found.found) return VAULT_NOT_BLURAY;
    }
    *icb = found.icb;
    return VAULT_DONE;
}

int main(int argc, char **argv) {
    disc = argc == 3 ? fopen(argv[1], "rb") : NULL;
    if (!disc) return 66;
    vault_opening opening = vault_opening_start();
    while (vault_opening_is_wanting(opening)) {
        size_t n = fetched(vault_opening_wants(opening));
        opening = vault_opening_step(opening, sector, n);
    }
    vault_long_ad icb;
    uint64_t answer = opening.opened.answer;
    if (answer == VAULT_DONE) answer = look_up(opening.opened.volume, (const uint8_t *)argv[2], strlen(argv[2]), &icb);
    if (answer == VAULT_DONE) answer = pass(opening.opened.volume, icb, print);
    if (answer != VAULT_DONE) fprintf(stderr, "%s\n", vault_answer_text(answer));
    return (int)answer;
}
