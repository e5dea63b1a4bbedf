/* changes FILE CODE: prints the changes of the variable with this identifier code, a line each:
 * time, value and which digits are known. */
#include "run.h"
#include <inttypes.h>

int main(int count, char **words) {
    if (count != 3)
        return fputs("changes FILE CODE\n", stderr), 2;
    struct vcdkit_bytes dump = file_of(words[1]), code = bytes_of(words[2]);
    struct vcdkit_reading reading = {{0}, 0, 0, 0};
    struct vcdkit_change changes[4096];
    uint8_t status;
    do {
        status = vcdkit_changes(dump.at, dump.length, code.at, code.length, seed(), &reading,
                                changes, 4096);
        for (uint64_t at = 0; at < reading.count; at++)
            printf("%" PRIu64 " %" PRIx64 " %" PRIx64 "\n", changes[at].time, changes[at].value,
                   changes[at].known);
    } while (status == VCDKIT_FULL);
    fflush(stdout);
    if (status == VCDKIT_FAULT)
        fprintf(stderr, "%s:%" PRIu64 ": fault %" PRIu64 "\n", words[1], reading.line,
                reading.fault);
    else if (status)
        fprintf(stderr, "changes: %s\n", status == VCDKIT_NO_CODE ? "no such code" : "no memory");
    free((void *)dump.at);
    return status;
}
