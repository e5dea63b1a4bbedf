/* report FILE: prints what a dump has, or its first fault. */
#include "run.h"

int main(int count, char **words) {
    if (count != 2)
        return fputs("report FILE\n", stderr), 2;
    const char *const check[] = {"check", "-i", words[1]};
    return run(check, 3, words[1]);
}
