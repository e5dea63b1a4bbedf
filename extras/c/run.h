/* run.h: what the examples share: a file in memory, a seed, and one call. */
#include "vcdkit.h"
#include <stdio.h>
#include <stdlib.h>
#include <string.h>

static inline struct vcdkit_bytes bytes_of(const char *text) {
    struct vcdkit_bytes bytes = {(const uint8_t *)text, strlen(text)};
    return bytes;
}

/* The bytes of a file; ends where it cannot be read. */
static inline struct vcdkit_bytes file_of(const char *name) {
    size_t room = 1 << 16, length = 0, got;
    uint8_t *text = malloc(room);
    FILE *file = fopen(name, "rb");
    if (!file) {
        perror(name);
        exit(3);
    }
    while (text && (got = fread(text + length, 1, room - length, file)) > 0)
        if ((length += got) == room)
            text = realloc(text, room *= 2);
    if (!text || ferror(file)) {
        fprintf(stderr, "%s: cannot be read\n", name);
        exit(3);
    }
    fclose(file);
    struct vcdkit_bytes bytes = {text, length};
    return bytes;
}

/* A number that whoever made a dump does not know. */
static inline uint64_t seed(void) {
    uint64_t number = 0;
    FILE *random = fopen("/dev/urandom", "rb");
    if (!random || fread(&number, sizeof number, 1, random) != 1) {
        perror("/dev/urandom");
        exit(3);
    }
    fclose(random);
    return number;
}

/* Runs the words over one file, prints the output and then the message, as the program does, and
 * returns the status. */
static inline int run(const char *const *words, size_t count, const char *name) {
    struct vcdkit_bytes lent[16];
    struct vcdkit_file file = {bytes_of(name), file_of(name)};
    uint8_t err[4096], *out = NULL;
    uint64_t used = file.bytes.length, said = 0, room;
    uint8_t status;
    for (size_t at = 0; at < count; at++)
        lent[at] = bytes_of(words[at]);
    do {
        room = used + 1;
        free(out);
        if (!(out = malloc(room)))
            return 3;
        status = vcdkit_run(lent, count, (const uint8_t *)"", 0, &file, 1, seed(), out, room, &used,
                            err, sizeof err, &said);
    } while (status != 4 && used > room);
    if (status != 4) {
        fwrite(out, 1, used, stdout);
        fflush(stdout);
        fwrite(err, 1, said < sizeof err ? said : sizeof err, stderr);
    }
    free(out);
    free((void *)file.bytes.at);
    return status;
}
