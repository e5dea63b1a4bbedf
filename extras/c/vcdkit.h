/* vcdkit.h: the commands of vcdkit over value change dumps in memory. Link with libvcdkit.a or
 * libvcdkit.so, which `make library` builds from crates/vcdkit_c.
 *
 * A call returns what the program would write; this is proved for all bytes. The library does not
 * check that its caller keeps these rules:
 *  - No pointer is null, even if its length is 0. It points to as many bytes or changes as the
 *    length says, which are at most 2^63 - 1 bytes.
 *  - What a call writes (out, err, reading, changes, and each number) overlaps nothing else.
 *  - During a call, nobody else writes what it reads, or reads what it writes. This holds for a
 *    mapped file too: nobody may change or shorten it.
 * Several threads may call at the same time. The library takes memory with malloc, frees all of it,
 * and opens no file. Do not call it in a signal handler. */
#ifndef VCDKIT_H
#define VCDKIT_H
#include <stddef.h>
#include <stdint.h>

#ifdef __cplusplus
extern "C" {
#endif

/* Bytes that are lent. */
struct vcdkit_bytes {
    const uint8_t *at;
    size_t length;
};

/* A file in memory. If two have the same name, the first one counts. */
struct vcdkit_file {
    struct vcdkit_bytes name;
    struct vcdkit_bytes bytes;
};

/* Runs the command that the words ask for, as `vcdkit WORDS..` does, and returns its exit status: 0
 * done, 1 a fault of a dump or a name that selects nothing, 2 a usage error, 3 no such file or no
 * memory. It returns 4 if there was no memory to begin; then nothing is promised about out and err.
 *
 * input is standard input, and files are those that the words name. seed may be any number: the
 * result is the same. If whoever made a dump does not know it, they cannot choose codes that are
 * slow to find. The output goes to out, as far as out_length allows, and takes no other memory.
 * *out_used is its whole length: if that is more than out_length, call again with that much. The
 * same holds for the message and err. */
uint8_t vcdkit_run(const struct vcdkit_bytes *words, size_t words_length,
                   const uint8_t *input, size_t input_length,
                   const struct vcdkit_file *files, size_t files_length, uint64_t seed,
                   uint8_t *out, size_t out_length, uint64_t *out_used,
                   uint8_t *err, size_t err_length, uint64_t *err_used);

/* A change of a variable's value. */
struct vcdkit_change {
    uint64_t time;  /* in ticks, those of the dump's $timescale */
    uint64_t value; /* a bit for each of the last 64 digits: 1 if the digit is 1 */
    uint64_t known; /* the same: 1 if the digit is 0 or 1. All bits are 1 if all these digits are
                     * known, and 0 for a real number. A value of fewer digits is extended on the
                     * left, with 0 before 0 and 1, with x before x, with z before z */
};

/* A reading of the changes of a variable. All zeros at the first call. */
struct vcdkit_reading {
    uint64_t place[8]; /* where the next call resumes; only the library uses it. It changes only
                        * with VCDKIT_ALL and VCDKIT_FULL */
    uint64_t count;    /* how many changes the last call found: at most as many as the array has
                        * room for, and 0 with VCDKIT_NO_CODE and VCDKIT_NO_MEMORY */
    uint64_t fault;    /* the fault of the dump, if there is one:
                        *  1 token too long (over 1,048,576 bytes), 2 unexpected end of input,
                        *  3 unknown command, 4 command out of place, 5 bad timescale,
                        *  6 bad scope, 7 bad variable, 8 code declared with another size or kind,
                        *  9 upscope without scope, 10 scopes too deep, 11 too many declarations,
                        *  13 bad time, 14 time goes back, 15 bad value, 16 unknown code,
                        *  17 value too wide, 18 real text too long, 19 time inside a section,
                        *  21 input too long */
    uint64_t line;     /* the line of the fault */
};

/* How a call of vcdkit_changes ends. */
enum {
    VCDKIT_ALL = 0,       /* the dump has no further change, and no fault */
    VCDKIT_FAULT = 1,     /* the dump has a fault, after the changes that were found */
    VCDKIT_NO_CODE = 2,   /* no variable has the code */
    VCDKIT_NO_MEMORY = 3, /* memory ran out: the same call may be made again */
    VCDKIT_FULL = 4,      /* the array is full: the next call finds the changes after these */
    VCDKIT_BAD_PLACE = 5  /* no call has left this reading */
};

/* Finds the changes of the variables with this identifier code (`vcdkit list` shows it): one for
 * each change that the dump writes, even if the value stays the same. A call begins where the last
 * one stopped, and finds as many as the array has room for (at least 1). Each call reads the header
 * and then resumes in the body, so use an array of some thousands. dump and code are those of the
 * first call. seed is as for vcdkit_run, and may differ from call to call. */
uint8_t vcdkit_changes(const uint8_t *dump, size_t dump_length,
                       const uint8_t *code, size_t code_length, uint64_t seed,
                       struct vcdkit_reading *reading,
                       struct vcdkit_change *changes, size_t changes_length);

#ifdef __cplusplus
}
#endif
#endif
