/* Counts the frames and diagnostics of a file. After `make install`:
 *
 *     cc examples/count.c -o count $(pkg-config --cflags --libs janorembe)
 */
#include <janorembe.h>
#include <stdio.h>
#include <stdlib.h>

#define MOST 16777216

static void *lent(uint64_t bytes)
{
    void *memory = calloc(bytes + 1, 1);
    if (memory == NULL) {
        fputs("out of memory\n", stderr);
        exit(3);
    }
    return memory;
}

int main(int count, char **words)
{
    uint8_t *text = lent(MOST + 1);
    uint64_t answer[8];
    FILE *file = count == 2 ? fopen(words[1], "rb") : NULL;
    if (file == NULL) {
        fputs("count FILE\n", stderr);
        return 3;
    }
    size_t length = fread(text, 1, MOST + 1, file);
    uint32_t *work = lent(0), number = janorembe_measure(text, length, work, 0, 0, answer);
    if (number == 2) { /* the place is the words of work area that are needed */
        uint64_t work_length = answer[0];
        work = lent(4 * work_length);
        number = janorembe_measure(text, length, work, work_length, 0, answer);
    }
    if (number != 0) {
        printf("%s: refused with number %u at %llu\n", words[1], number, (unsigned long long)answer[0]);
        return 2;
    }
    /* A diagnostic has 18 bytes. To have both streams, lend answer[3] and answer[4] bytes to janorembe_write. */
    printf("%s: %llu frames, %llu diagnostics\n", words[1], (unsigned long long)answer[6],
           (unsigned long long)answer[4] / 18);
    return 0;
}
