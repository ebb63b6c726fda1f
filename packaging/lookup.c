/* Says what a path names on a disc that is read a sector at a time, with no image in memory: lookup DISC PATH. The functions
 * are to be taken over as they stand: fetched is the only one that knows where the sectors come from. */
#include <stdio.h>
#include <stdlib.h>
#include <string.h>
#include <vault.h>

static FILE *disc;
static uint8_t sector[VAULT_SECTOR_SIZE];
static unsigned long long asked;

static void *longer(void *from, size_t size) {
    void *to = realloc(from, size);
    if (!to) exit(71);
    return to;
}

/* How many bytes of a sector could be had: all of them, or none. A long of 32 bits ends at 2 GiB: take fseeko there. */
static size_t fetched(uint64_t at) {
    asked++;
    if (fseek(disc, (long)(at * VAULT_SECTOR_SIZE), SEEK_SET)) return 0;
    return fread(sector, 1, sizeof sector, disc) == sizeof sector ? sizeof sector : 0;
}

static vault_opened open_disc(void) {
    vault_opening opening = vault_opening_start();
    while (vault_opening_is_wanting(opening)) {
        size_t n = fetched(vault_opening_wants(opening));
        opening = vault_opening_step(opening, sector, n);
    }
    return opening.opened;
}

/* Reads a directory's bytes, which are wanted all at once. A sector lists 256 extents at most, and holds its own size in bytes. */
static uint64_t read_whole(vault_volume volume, vault_long_ad icb, uint8_t **out, size_t *length) {
    vault_extent *row = NULL;
    size_t slots = 0, room = 0;
    vault_reading reading = vault_reading_start(volume, icb, row, slots);
    while (vault_reading_is_wanting(reading)) {
        if (slots - reading.scan.listed < 256) row = longer(row, (slots = 2 * slots + 256) * sizeof *row);
        if (room - reading.length < VAULT_SECTOR_SIZE) *out = longer(*out, room = 2 * room + VAULT_SECTOR_SIZE);
        size_t n = fetched(vault_reading_wants(reading));
        reading = vault_reading_step(reading, sector, n, row, slots, *out, room);
    }
    free(row);
    *length = reading.length;
    return reading.answer;
}

/* What a path names, a component at a time. Nothing of a name is VAULT_NOT_BLURAY, as it is of vault_lookup. */
static vault_named look_up(vault_volume volume, const char *text, vault_matching matching) {
    const uint8_t *path = (const uint8_t *)text;
    vault_named at = {VAULT_DONE, true, volume.root, true};
    vault_component c = vault_next_component(path, strlen(text), 0);
    for (; c.length && at.answer == VAULT_DONE; c = vault_next_component(path, strlen(text), c.at + c.length)) {
        uint8_t *bytes = NULL;
        size_t length = 0;
        uint64_t answer = at.directory ? read_whole(volume, at.icb, &bytes, &length) : VAULT_NOT_BLURAY;
        if (answer == VAULT_DONE) at = vault_match(volume, bytes, length, path + c.at, c.length, matching);
        else at.answer = answer;
        if (at.answer == VAULT_DONE && !at.found) at.answer = VAULT_NOT_BLURAY;
        free(bytes);
    }
    return at;
}

int main(int argc, char **argv) {
    disc = argc == 3 ? fopen(argv[1], "rb") : NULL;
    if (!disc) return 66;
    vault_opened opened = open_disc();
    vault_named found = {opened.answer, false, opened.volume.root, false};
    if (opened.answer == VAULT_DONE) found = look_up(opened.volume, argv[2], VAULT_AS_WRITTEN);
    if (found.answer != VAULT_DONE) {
        fprintf(stderr, "%s\n", vault_answer_text(found.answer));
        return (int)found.answer;
    }
    printf("%s in block %lu, partition %u: %llu sectors\n", found.directory ? "directory" : "file",
           (unsigned long)found.icb.location.block, (unsigned)found.icb.location.partition_ref, asked);
    return 0;
}
