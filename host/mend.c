/*
 * mend_host SCHEME_FILE < BLOCKS
 *
 * Mends the blocks of standard input by the scheme of a file: n bytes each, n being byte 7 of the file.
 * Prints a line for each: its number from 0, the answer, and the symbols of the output as hex digits, or - on a refusal.
 * A last block of fewer bytes is handed over as it is, and refused.
 * Exit status: 0 if every block was mended, 1 if any was refused, 2 if a file could not be read or written.
 */
#include <stdio.h>
#include <string.h>
#include "dulvarech.h"

/* One byte more than any file that is accepted, so that a longer one is seen to be longer. */
static uint8_t file[DULVARECH_MOST_FILE + 1];

static void print_line(unsigned long number, uint8_t answer, const uint8_t *out, size_t n)
{
    printf("%lu %u ", number, (unsigned)answer);
    if (answer > DULVARECH_MOST_DISTANCE) {
        putchar('-');
    } else {
        for (size_t i = 0; i < n; i++)
            printf("%x", (unsigned)out[i]);
    }
    putchar('\n');
}

int main(int argc, char **argv)
{
    if (argc != 2) {
        fprintf(stderr, "usage: %s SCHEME_FILE < BLOCKS\n", argv[0]);
        return 2;
    }
    FILE *in = fopen(argv[1], "rb");
    if (in == NULL) {
        perror(argv[1]);
        return 2;
    }
    size_t file_size = fread(file, 1, sizeof file, in);
    int failed = ferror(in);
    fclose(in);
    if (failed) {
        fprintf(stderr, "%s: cannot be read\n", argv[1]);
        return 2;
    }

    /* The size of a block. A file too short to say it, or that says 0 or more than 64, is refused at the first block. */
    size_t n = file_size > DULVARECH_PLACES_AT ? file[DULVARECH_PLACES_AT] : 1;
    if (n == 0)
        n = 1;

    uint8_t block[255];
    uint8_t out[255];
    int status = 0;
    size_t got;
    for (unsigned long number = 0; (got = fread(block, 1, n, stdin)) > 0; number++) {
        memset(out, 0, sizeof out);
        uint8_t answer = dulvarech_correct(file, file_size, block, got, out, n);
        print_line(number, answer, out, n);
        if (answer > DULVARECH_MOST_DISTANCE)
            status = 1;
    }
    if (ferror(stdin) || fflush(stdout) != 0)
        return 2;
    return status;
}
