// A host of the library `replay_host`: lends it packet memory of the length that its one argument says, every byte 0, and the library plays
// standard input as the program `replay` does (docs/REPLAY.md). tools/replay_host.sh builds it.
#include <errno.h>
#include <stdint.h>
#include <stdio.h>
#include <stdlib.h>

// crates/replay_host/src/lib.rt; a lent slice is its address and its length.
size_t yaltumbir_replay_kept(void);
void yaltumbir_replay(uint8_t *bytes, size_t count);

static int usage(void)
{
    fputs("usage: replay_host BYTES < RECORDS\n", stderr);
    return 2;
}

int main(int count, char **words)
{
    if (count != 2 || words[1][0] < '0' || words[1][0] > '9')
        return usage();
    char *end;
    errno = 0;
    unsigned long long memory = strtoull(words[1], &end, 10);
    size_t kept = yaltumbir_replay_kept();
    if (errno != 0 || *end != '\0' || memory > SIZE_MAX - kept)
        return usage();
    uint8_t *bytes = calloc(kept + memory, 1);
    if (bytes == NULL) {
        perror("replay_host");
        return 1;
    }
    yaltumbir_replay(bytes, kept + memory);
    free(bytes);
    return 0;
}
