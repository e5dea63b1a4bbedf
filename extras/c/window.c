/* window FILE FROM TO: prints the dump from one time to another. */
#include "run.h"

int main(int count, char **words) {
    if (count != 4)
        return fputs("window FILE FROM TO\n", stderr), 2;
    const char *const cut[] = {"cut", "-i", words[1], "--from", words[2], "--to", words[3]};
    return run(cut, 7, words[1]);
}
