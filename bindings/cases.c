/* Calls the library for each pair of netstrings of standard input, words and files, and writes for each what was told and the reply, both as
 * netstrings. `tools/bindings` compares them with what the program does. With a number it makes the first call so often, and writes how many
 * microseconds one takes. */
#define _POSIX_C_SOURCE 199309L
#include <stdio.h>
#include <stdlib.h>
#include <string.h>
#include <time.h>

#include "lio.h"

/* what is left of the input */
static const unsigned char *at, *end;

static const char *read_input(void) {
    size_t room = 1 << 16, length = 0;
    char *bytes = malloc(room);
    while (bytes) {
        size_t got = fread(bytes + length, 1, room - length, stdin);
        if (!got) break;
        length += got;
        if (length == room) bytes = realloc(bytes, room *= 2);
    }
    if (!bytes) exit(2);
    at = (unsigned char *)bytes;
    end = at + length;
    return bytes;
}

/* the next netstring */
static const unsigned char *next(size_t *length) {
    char *colon;
    *length = strtoull((const char *)at, &colon, 10);
    const unsigned char *item = (unsigned char *)colon + 1;
    at = item + *length + 1;
    return item;
}

/* how much room a reply gets that is only measured */
enum { ROOM = 1 << 16 };

static int measure(long calls) {
    static unsigned char out[ROOM];
    size_t words_length, files_length;
    const unsigned char *words = next(&words_length), *files = next(&files_length);
    struct lio_told told;
    struct timespec begin, over;
    clock_gettime(CLOCK_MONOTONIC, &begin);
    for (long call = 0; call < calls; call++) lio_host(words, words_length, files, files_length, out, ROOM, &told);
    clock_gettime(CLOCK_MONOTONIC, &over);
    printf("%.1f\n", ((over.tv_sec - begin.tv_sec) * 1e9 + (over.tv_nsec - begin.tv_nsec)) / 1e3 / calls);
    return 0;
}

int main(int count, char **arguments) {
    read_input();
    if (count > 1) return measure(strtol(arguments[1], NULL, 10));
    while (at < end) {
        size_t words_length, files_length, room = 1;
        const unsigned char *words = next(&words_length), *files = next(&files_length);
        unsigned char *out = malloc(room);
        struct lio_told told;
        for (;;) {
            if (!out) return 2;
            lio_host(words, words_length, files, files_length, out, room, &told);
            if (told.needed <= room) break;
            room = told.needed;
            out = realloc(out, room);
        }
        char line[80];
        int line_length = snprintf(line, sizeof line, "%u %zu %zu", (unsigned)told.status, told.place, told.needed);
        printf("%d:%s,%zu:", line_length, line, told.needed);
        fwrite(out, 1, told.needed, stdout);
        putchar(',');
        free(out);
    }
    return fflush(stdout) ? 2 : 0;
}
