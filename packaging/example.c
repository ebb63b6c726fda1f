/* Reads a cue from the image of a disc: cue IMAGE PATH. */
#include <stdio.h>
#include <stdlib.h>
#include <string.h>
#include <vault.h>

static int refused(uint64_t answer) {
    fprintf(stderr, "%s\n", vault_answer_text(answer));
    return (int)answer;
}

int main(int argc, char **argv) {
    FILE *file = argc == 3 ? fopen(argv[1], "rb") : NULL;
    if (!file || fseek(file, 0, SEEK_END)) return 66;
    size_t size = (size_t)ftell(file);
    uint8_t *image = malloc(size + 1), *work = malloc(size + 1); /* No sound directory is longer than its disc. */
    rewind(file);
    if (!image || !work || fread(image, 1, size, file) != size) return 66;

    vault_opened opened = vault_open(image, size, 0);
    if (opened.answer != VAULT_DONE) return refused(opened.answer);
    vault_found cue = vault_lookup(opened.volume, image, size, (const uint8_t *)argv[2], strlen(argv[2]),
                                   VAULT_AS_WRITTEN, work, size);
    if (cue.answer != VAULT_DONE) return refused(cue.answer);
    vault_reply read = vault_measure(opened.volume, image, size, cue.icb);
    if (read.answer != VAULT_DONE) return refused(read.answer);
    uint8_t *out = malloc(read.length + 1);
    if (!out) return refused(VAULT_NO_ROOM);
    read = vault_read(opened.volume, image, size, cue.icb, out, read.length);
    if (read.answer != VAULT_DONE) return refused(read.answer);
    return fwrite(out, 1, read.length, stdout) == read.length ? 0 : 74;
}
