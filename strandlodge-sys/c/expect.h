/* expect.h: what the programs here use of the C library, and what they say where something isn't so. */
#include <stdbool.h>
#include <stddef.h>
#include <stdint.h>

/* The toolchain has the library's code for x86-64, and no headers. */
#ifdef __cplusplus
extern "C" {
#endif
extern long read(int fd, void *to, size_t n);
extern long write(int fd, const void *from, size_t n);
extern void *memset(void *to, int byte, size_t n);
extern void *memcpy(void *to, const void *from, size_t n);
extern void *memmove(void *to, const void *from, size_t n);
extern int memcmp(const void *one, const void *other, size_t n);
extern size_t strlen(const char *text);
extern char *strstr(const char *in, const char *text);
extern void *malloc(size_t n);
extern void free(void *from);
extern void exit(int status);
#ifdef __cplusplus
}
#endif

static void say(int fd, const char *text) {
    if (write(fd, text, strlen(text)) < 0) exit(2);
}

#define EXPECT(fact) \
    do { \
        if (!(fact)) { \
            say(2, __FILE__ ": not so: " #fact "\n"); \
            exit(1); \
        } \
    } while (0)
