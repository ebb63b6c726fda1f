/* survey.c: what the program `survey_cases` prints, by the calls of vault.h, for tools/survey_model.py --random.
 *
 * Standard input is as crates/survey_cases/data/shelves is (tools/survey_images.py): one shelf after the other, packed, and its queries. */
#include "vault.h"

/* What is used of the C library, declared here: the toolchain has its code for x86-64, and no headers. */
extern long read(int fd, void *to, size_t n);
extern long write(int fd, const void *from, size_t n);
extern void *memset(void *to, int byte, size_t n);
extern void *memcpy(void *to, const void *from, size_t n);
extern size_t strlen(const char *text);
extern _Noreturn void exit(int status);

enum { NUMBERS = 4096, GIVEN = 2048, WORK = 1 << 16, FREE = 0xa5, HEAD = 28 };

static uint8_t all[16 << 20], shelf[8 << 20], work[WORK];
static char said[16 << 20];
static size_t length, at, said_length;
static uint64_t row[NUMBERS], given[GIVEN];

static void say_bytes(const void *text, size_t n) {
    if (n > sizeof said - said_length) exit(3);
    memcpy(said + said_length, text, n);
    said_length += n;
}

static void say(const char *text) { say_bytes(text, strlen(text)); }

/* A word, and a number right behind it. */
static void say_number(const char *word, uint64_t n) {
    char digits[20];
    size_t i = sizeof digits;
    do digits[--i] = (char)('0' + n % 10);
    while (n /= 10);
    say(word);
    say_bytes(digits + i, sizeof digits - i);
}

static const uint8_t *take(size_t n) {
    if (n > length - at) exit(4);
    at += n;
    return all + at - n;
}

static uint64_t number(const uint8_t *from, size_t n) { return n ? from[0] | number(from + 1, n - 1) << 8 : 0; }

static uint64_t take_number(size_t n) { return number(take(n), n); }

/* Lays the runs of a packed shelf where they stand, or zeros in their place; how many bytes the shelf has. */
static size_t lay(const uint8_t *packed, bool zeros) {
    size_t from = 8;
    for (uint64_t runs = number(packed + 4, 4); runs; runs--) {
        uint64_t to = number(packed + from, 4), n = number(packed + from + 4, 4);
        if (to > sizeof shelf || n > sizeof shelf - to) exit(5);
        if (zeros)
            memset(shelf + to, 0, n);
        else
            memcpy(shelf + to, packed + from + 8, n);
        from += 8 + n;
    }
    return number(packed, 4);
}

static void say_places(size_t numbers) {
    for (size_t place = 0; place + VAULT_FIGURES <= numbers; place += VAULT_FIGURES) {
        say("place");
        for (size_t i = 0; i < VAULT_FIGURES; i += 2) {
            uint64_t n = row[place + i], mark = row[place + i + 1];
            if (!n && !mark) continue;
            say_number(" ", i / 2);
            say_number(":", n);
            if (mark) say_number("!", mark);
        }
        say("\n");
    }
}

/* How many numbers from here to the end of the row, and all behind it, are as they came: those behind it must be. */
static uint64_t kept(size_t from, size_t numbers) {
    uint64_t count = 0, as_it_came = number((const uint8_t[]){FREE, FREE, FREE, FREE, FREE, FREE, FREE, FREE}, 8);
    for (; from < numbers; from++) count += row[from] == as_it_came;
    for (; from < NUMBERS; from++)
        if (row[from] != as_it_came) exit(6);
    return count;
}

static bool is_zero(size_t n) {
    for (size_t i = 0; i < n; i++)
        if (work[i]) return false;
    for (size_t i = n; i < WORK; i++)
        if (work[i] != FREE) exit(7);
    return true;
}

static void survey(size_t bytes, uint32_t how, size_t numbers, size_t room, uint64_t most, size_t many) {
    say_number("survey how ", how);
    say_number(" numbers ", numbers);
    say_number(" work ", room);
    if (most != VAULT_UNLIMITED) say_number(" most ", most);
    say(" lengths");
    for (size_t i = 0; i < many; i++) say_number(" ", given[i]);
    uint64_t answer = vault_survey(shelf, bytes, given, many, how, most, row, numbers, work, room);
    size_t whole = answer ? 0 : VAULT_FIGURES * (many + 1);
    say_number("\nanswer ", answer);
    say_number(" kept ", kept(whole, numbers));
    say(is_zero(room) ? " zero\n" : " dirty\n");
    say_places(whole);
}

static void total(size_t numbers, size_t many) {
    for (size_t i = 1; i < many && i <= numbers; i++) row[i - 1] = given[i];
    say_number("total ", given[0]);
    say_number(" numbers ", numbers);
    uint64_t answer = vault_survey_total(row, numbers, given[0]);
    size_t whole = numbers / VAULT_FIGURES * VAULT_FIGURES;
    say_number("\nanswer ", answer);
    say_number(" kept ", kept(whole, numbers));
    say("\n");
    say_places(whole);
}

static void ask(size_t bytes) {
    const uint8_t *head = take(HEAD);
    size_t numbers = number(head + 8, 4), room = number(head + 12, 4), many = number(head + 24, 4);
    if (numbers > NUMBERS || room > WORK || many > GIVEN) exit(8);
    for (size_t i = 0; i < many; i++) given[i] = take_number(8);
    memset(row, FREE, sizeof row);
    memset(work, FREE, sizeof work);
    if (number(head, 4))
        total(numbers, many);
    else
        survey(bytes, (uint32_t)number(head + 4, 4), numbers, room, number(head + 16, 8), many);
}

int main(void) {
    for (long got; length < sizeof all && (got = read(0, all + length, sizeof all - length)) > 0;) length += (size_t)got;
    while (at < length) {
        size_t n = take_number(2);
        say("shelf ");
        say_bytes(take(n), n);
        say("\n");
        const uint8_t *packed = take(take_number(4));
        size_t bytes = lay(packed, false), queries = take_number(4);
        for (size_t end = at + queries; at < end;) ask(bytes);
        lay(packed, true);
    }
    for (size_t i = 0; i < said_length;) {
        long put = write(1, said + i, said_length - i);
        if (put <= 0) return 9;
        i += (size_t)put;
    }
    return 0;
}
