/*
 * Calls of dulvarech_correct with answers and outputs that are known, for check.sh.
 * Every file, block and output is handed over in memory of exactly its size, so that valgrind sees a read or write beside it.
 */
#include <stdio.h>
#include <stdlib.h>
#include <string.h>
#include "dulvarech.h"

/* Residues 2, n = 7, k = 4, t = 1, five shifts of step 1. */
static const uint8_t hamming[] = {0x50, 0x44, 0x53, 0, 1, 0, 2, 7, 4, 1, 1, 0, 5, 1,
                                  1, 1, 0, 0, 1, 1, 1, 1, 1, 1, 0, 1};
/* Residues 2, n = 4, k = 1, t = 1, two shifts of step 1. */
static const uint8_t repeated[] = {0x50, 0x44, 0x53, 0, 1, 0, 2, 4, 1, 1, 1, 0, 2, 1, 1, 1, 1};
/* The same scheme with its two permutations in a table, and by powers of a multiplier over shifts. */
static const uint8_t tabled[] = {0x50, 0x44, 0x53, 0, 1, 0, 2, 4, 1, 1, 0, 0, 2, 1, 1, 1, 0, 1, 2, 3, 1, 2, 3, 0};
static const uint8_t multiplied[] = {0x50, 0x44, 0x53, 0, 1, 0, 2, 4, 1, 1, 2, 0, 2, 1, 3, 2, 1, 1, 1};

#define UNWRITTEN 0xa5

static unsigned long compared;
static unsigned long answered[256];

static uint8_t *exactly(const uint8_t *bytes, size_t size)
{
    uint8_t *copy = malloc(size > 0 ? size : 1);
    if (copy == NULL)
        exit(2);
    if (size > 0)
        memcpy(copy, bytes, size);
    return copy;
}

/* Calls, and ends the program unless the answer is one of the header's and a refusal leaves the output as it was. */
static uint8_t call(const char *name, const uint8_t *file, size_t file_size, const uint8_t *block, size_t block_size,
                    uint8_t *out, size_t out_size)
{
    uint8_t *own_file = exactly(file, file_size);
    uint8_t *own_block = exactly(block, block_size);
    uint8_t *own_out = exactly(out, out_size);
    uint8_t answer = dulvarech_correct(own_file, file_size, own_block, block_size, own_out, out_size);
    int is_distance = answer <= DULVARECH_MOST_DISTANCE;
    int is_refusal = answer > DULVARECH_REFUSED && answer <= DULVARECH_FILE_LENGTH;
    if (!(is_distance || is_refusal) || (is_refusal && out_size > 0 && memcmp(own_out, out, out_size) != 0)
        || (file_size > 0 && memcmp(own_file, file, file_size) != 0)
        || (block_size > 0 && memcmp(own_block, block, block_size) != 0)) {
        fprintf(stderr, "host/calls.c: %s: answer %u, or a byte that was changed\n", name, (unsigned)answer);
        exit(1);
    }
    if (out_size > 0)
        memcpy(out, own_out, out_size);
    free(own_file);
    free(own_block);
    free(own_out);
    compared++;
    answered[answer]++;
    return answer;
}

/* The answer has to be `answer`; on a distance the output has to be `word`. */
static void expect(const char *name, const uint8_t *file, size_t file_size, const char *block, size_t out_size,
                   uint8_t answer, const char *word)
{
    uint8_t symbols[300], out[300];
    size_t n = strlen(block);
    for (size_t i = 0; i < n; i++)
        symbols[i] = (uint8_t)(block[i] - '0');
    memset(out, UNWRITTEN, sizeof out);
    uint8_t got = call(name, file, file_size, symbols, n, out, out_size);
    int same = got == answer;
    for (size_t i = 0; same && word != NULL && i < out_size; i++)
        same = out[i] == (uint8_t)(word[i] - '0');
    if (!same) {
        fprintf(stderr, "host/calls.c: %s: answer %u, expected %u\n", name, (unsigned)got, (unsigned)answer);
        exit(1);
    }
}

/* One byte of the file is another. */
static void expect_with(const char *name, const uint8_t *file, size_t file_size, size_t at, uint8_t byte, uint8_t answer)
{
    uint8_t damaged[300];
    memcpy(damaged, file, file_size);
    damaged[at] = byte;
    expect(name, damaged, file_size, "0000000", 7, answer, NULL);
}

static uint32_t state = 20240229;

static uint8_t random_byte(void)
{
    state = state * 1664525u + 1013904223u;
    return (uint8_t)(state >> 24);
}

static void worked(void)
{
    size_t size = sizeof hamming;
    expect("mended", hamming, size, "1110100", 7, 1, "0110100");
    expect("clean", hamming, size, "0110100", 7, DULVARECH_CLEAN, "0110100");
    expect("symbol range", hamming, size, "0110200", 7, DULVARECH_SYMBOL_RANGE, NULL);
    expect("short block", hamming, size, "011010", 7, DULVARECH_WORD_LENGTH, NULL);
    expect("long block", hamming, size, "01101000", 7, DULVARECH_WORD_LENGTH, NULL);
    expect("no block", hamming, size, "", 7, DULVARECH_WORD_LENGTH, NULL);
    expect("short output", hamming, size, "0110100", 6, DULVARECH_WORD_LENGTH, NULL);
    expect("long output", hamming, size, "0110100", 8, DULVARECH_WORD_LENGTH, NULL);
    expect("no output", hamming, size, "0110100", 0, DULVARECH_WORD_LENGTH, NULL);
    expect("length before symbols", hamming, size, "022", 7, DULVARECH_WORD_LENGTH, NULL);
    expect("lost", repeated, sizeof repeated, "1100", 4, DULVARECH_LOST, NULL);
    expect("lost, table", tabled, sizeof tabled, "1100", 4, DULVARECH_LOST, NULL);
    expect("lost, multiplier", multiplied, sizeof multiplied, "1100", 4, DULVARECH_LOST, NULL);
    expect("shifts", repeated, sizeof repeated, "1011", 4, 1, "1111");
    expect("table", tabled, sizeof tabled, "0111", 4, 1, "1111");
    expect("multiplier", multiplied, sizeof multiplied, "0100", 4, 1, "0000");
}

static void damaged(void)
{
    size_t size = sizeof hamming;
    for (size_t cut = 0; cut < size; cut++)
        expect("file cut off", hamming, cut, "0110100", 7, cut < 13 ? DULVARECH_FILE_SHORT : DULVARECH_FILE_LENGTH, NULL);
    for (size_t at = 0; at < 3; at++)
        expect_with("mark", hamming, size, at, 0, DULVARECH_FILE_MARK);
    expect_with("version, high byte", hamming, size, 3, 1, DULVARECH_FILE_VERSION);
    expect_with("version, low byte", hamming, size, 4, 2, DULVARECH_FILE_VERSION);
    expect_with("family", hamming, size, 5, 2, DULVARECH_FILE_FIELD);
    expect_with("base", hamming, size, 6, 17, DULVARECH_FILE_FIELD);
    expect_with("n", hamming, size, 7, 65, DULVARECH_FILE_FIELD);
    expect_with("k", hamming, size, 8, 7, DULVARECH_FILE_FIELD);
    expect_with("t", hamming, size, 9, 6, DULVARECH_FILE_FIELD);
    expect_with("form", hamming, size, 10, 3, DULVARECH_FILE_FIELD);
    expect_with("count", hamming, size, 12, 0, DULVARECH_FILE_FIELD);
    expect_with("another n", hamming, size, 7, 8, DULVARECH_FILE_LENGTH);
    expect_with("another form", hamming, size, 10, 2, DULVARECH_FILE_LENGTH);
    expect_with("a row code", hamming, size, 25, 2, DULVARECH_ROW_CODE);
    expect_with("t of 2", hamming, size, 9, 2, DULVARECH_LIGHT_CODEWORD);
    expect_with("a row of another code", hamming, size, 14, 0, DULVARECH_LIGHT_CODEWORD);
    expect_with("too few shifts", hamming, size, 12, 2, DULVARECH_UNCLEARED);
    expect_with("an entry twice in a table row", tabled, sizeof tabled, 16, 1, DULVARECH_NO_PERMUTATION);
    expect_with("no powers", multiplied, sizeof multiplied, 15, 0, DULVARECH_LIST_SHAPE);
}

/* Random bytes as a file; then a good file with a few random bytes in it. No such file may do more than be answered. */
static void random_files(void)
{
    uint8_t file[300], block[64], out[64];
    for (int turn = 0; turn < 20000; turn++) {
        size_t size = random_byte();
        for (size_t i = 0; i < size; i++)
            file[i] = random_byte();
        if (turn % 2 == 1 && size > 5)
            memcpy(file, hamming, 5);
        memset(out, UNWRITTEN, sizeof out);
        call("random file", file, size, file, size < 64 ? size : 64, out, random_byte() % 65);
    }
    for (int turn = 0; turn < 20000; turn++) {
        const uint8_t *good = turn % 3 == 0 ? hamming : turn % 3 == 1 ? tabled : multiplied;
        size_t size = turn % 3 == 0 ? sizeof hamming : turn % 3 == 1 ? sizeof tabled : sizeof multiplied;
        size_t n = good[DULVARECH_PLACES_AT];
        memcpy(file, good, size);
        for (int changes = turn % 4; changes > 0; changes--)
            file[5 + random_byte() % (size - 5)] = random_byte() % 8;
        for (size_t i = 0; i < n; i++)
            block[i] = random_byte() % 2;
        memset(out, UNWRITTEN, sizeof out);
        call("changed file", file, size, block, n, out, n);
    }
}

int main(void)
{
    worked();
    damaged();
    unsigned long known = compared;
    random_files();
    unsigned long kinds = 0;
    for (int answer = 0; answer < 256; answer++)
        kinds += answered[answer] > 0;
    printf("host/calls.c: %lu calls with known answers, %lu on random files, %lu different answers\n", known,
           compared - known, kinds);
    return 0;
}
