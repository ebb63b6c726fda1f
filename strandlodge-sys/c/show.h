/* show.h: the small show of crates/first_cue, which comes packed on standard input.
 *
 * tools/show_image.py lays the show out: the partition starts at sector 288 and has number 5; the root is in its block 3, SHOW in 4; the cues 9,
 * 10.1A, 10.1a and 11 have their entries in 5, 7, 9 and 11 and their bytes in the block behind. */
#include "expect.h"
#include "vault.h"

enum { SECTOR = 2048, START = 288, PARTITION = 5, IMAGE = (START + 16) * SECTOR, ENTRY = 176 };
enum { OUT = 1500, WORK = 2100, SLOTS = 3, RUNS = 5, FREE = 0xa5 };

static uint8_t image[IMAGE], out[OUT], work[WORK];
static vault_extent row[SLOTS];
static vault_run run[RUNS];

static uint32_t number(const uint8_t *at) { return at[0] | (uint32_t)at[1] << 8 | (uint32_t)at[2] << 16 | (uint32_t)at[3] << 24; }

static void unpack(void) {
    static uint8_t packed[4096];
    size_t n = 0, at = 8;
    for (long got; n < sizeof packed && (got = read(0, packed + n, sizeof packed - n)) > 0;) n += (size_t)got;
    EXPECT(n > 8 && number(packed) == IMAGE);
    for (uint32_t runs = number(packed + 4); runs; runs--) {
        uint32_t to = number(packed + at), length = number(packed + at + 4);
        EXPECT(length <= n - at - 8 && to <= IMAGE && length <= IMAGE - to);
        memcpy(image + to, packed + at + 8, length);
        at += 8 + length;
    }
}
