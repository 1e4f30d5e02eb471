// Expands the same packed bytes as bench/packbits.sh's program by a plain loop over packets, and prints a line for each
// form: its name, the nanoseconds of processor time, and the bytes that it gave.
#include <stdint.h>
#include <stdio.h>
#include <stdlib.h>
#include <string.h>
#include <time.h>

static int64_t now(void) {
    struct timespec t;
    clock_gettime(CLOCK_PROCESS_CPUTIME_ID, &t);
    return (int64_t)t.tv_sec * 1000000000 + t.tv_nsec;
}

static size_t expand(const uint8_t *packed, size_t len, uint8_t *into, size_t room) {
    size_t at = 0, given = 0;
    while (at < len && given < room) {
        uint8_t header = packed[at++];
        if (header < 128) {
            size_t n = (size_t)header + 1;
            if (n > len - at) break;
            if (n > room - given) n = room - given;
            memcpy(into + given, packed + at, n);
            at += (size_t)header + 1;
            given += n;
        } else if (header > 128) {
            if (at == len) break;
            size_t n = 257 - (size_t)header;
            if (n > room - given) n = room - given;
            memset(into + given, packed[at++], n);
            given += n;
        }
    }
    return given;
}

int main(void) {
    static const struct {
        const char *name;
        size_t size;
        uint8_t unit[16];
    } forms[] = {
        {"nothing", 1, {128}},
        {"repeats-128", 2, {129, 7}},
        {"packets-6", 9, {251, 7, 5, 1, 2, 3, 4, 5, 6}},
        {"packets-2", 5, {255, 7, 1, 1, 2}},
    };
    size_t len = 100000000, room = 100000000;
    uint8_t *packed = malloc(len), *into = malloc(room);
    if (packed == NULL || into == NULL) return 1;
    memset(into, 1, room);
    for (size_t form = 0; form < sizeof forms / sizeof forms[0]; form++) {
        for (size_t i = 0; i < len; i++) packed[i] = forms[form].unit[i % forms[form].size];
        int64_t start = now();
        size_t given = expand(packed, len, into, room);
        printf("fill %s %lld %zu\n", forms[form].name, (long long)(now() - start), given);
    }
    return 0;
}
