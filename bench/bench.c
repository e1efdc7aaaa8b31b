/*
 * bench.c - times the trial and the correction of the product against those of plain.c, in one run.
 *
 * Both open the same scheme files and correct the same blocks, and their answers are compared before anything is timed.
 * Times are those of this process, the least of several runs. Build and run it by bench/run.sh.
 */
#include <stdio.h>
#include <stdlib.h>
#include <string.h>
#include <time.h>
#include "plain.h"

/* The entry of crates/timing: 0 where the scheme goes live, else the number of the refusal. */
uint8_t dulvarech_rounds(const uint8_t *file, size_t file_size, const uint8_t *blocks, size_t blocks_size,
                         uint8_t *out, size_t out_size, uint32_t rounds);

enum { BLOCKS = 200, TRIALS = 5, RUNS = 7, UNWRITTEN = 0xa5 };

struct work {
    const char *name;
    uint8_t file[40000];
    size_t size;
    unsigned trials; /* how many times a trial is timed in one run */
    unsigned rounds; /* how many times all blocks are corrected in one run */
};

static uint64_t state = 20261118;

static unsigned drawn(unsigned below)
{
    state = state * UINT64_C(6364136223846793005) + UINT64_C(1442695040888963407);
    return (unsigned)((state >> 33) % below);
}

static double seconds(void)
{
    struct timespec now;
    clock_gettime(CLOCK_PROCESS_CPUTIME_ID, &now);
    return (double)now.tv_sec + (double)now.tv_nsec * 1e-9;
}

static void put(struct work *w, unsigned byte)
{
    w->file[w->size++] = (uint8_t)byte;
}

static void put_head(struct work *w, unsigned family, unsigned base, unsigned n, unsigned k, unsigned t, unsigned form, unsigned count)
{
    const unsigned head[] = {0x50, 0x44, 0x53, 0, 1, family, base, n, k, t, form, count / 256, count % 256};
    for (size_t i = 0; i < sizeof head / sizeof *head; i++)
        put(w, head[i]);
}

/* The symbols of a kind, written out as tables for the making of codes. */
struct field {
    unsigned q;
    unsigned sum[16][16], product[16][16];
};

static unsigned polynomial_product(unsigned a, unsigned b, unsigned modulus, unsigned degree)
{
    unsigned product = 0;
    for (unsigned i = 0; i < degree; i++)
        if (b >> i & 1)
            product ^= a << i;
    for (unsigned i = 2 * degree; i-- > degree;)
        if (product >> i & 1)
            product ^= modulus << (i - degree);
    return product;
}

static void fill_field(struct field *f, unsigned family, unsigned base)
{
    f->q = family == 0 ? base : 1u << base;
    for (unsigned a = 0; a < f->q; a++)
        for (unsigned b = 0; b < f->q; b++) {
            f->sum[a][b] = family == 0 ? (a + b) % base : a ^ b;
            f->product[a][b] = family == 0 ? a * b % base : polynomial_product(a, b, f->q + 3, base);
        }
}

/* The check rows of the cyclic code with this monic generator, of degree n - k: row i is the negative of x^(n - 1 - i) reduced. */
static void put_cyclic_rows(struct work *w, unsigned family, unsigned base, unsigned n, unsigned k, const unsigned *generator)
{
    struct field f;
    unsigned degree = n - k, rest[MOST_PLACES];
    fill_field(&f, family, base);
    for (unsigned i = 0; i < k; i++) {
        memset(rest, 0, sizeof rest);
        rest[0] = 1;
        for (unsigned power = 0; power < n - 1 - i; power++) {
            unsigned lead = rest[degree - 1];
            for (unsigned j = degree; j-- > 0;) {
                unsigned shifted = j == 0 ? 0 : rest[j - 1], minus = f.product[lead][generator[j]];
                for (unsigned x = 0; x < f.q; x++)
                    if (f.sum[x][minus] == shifted) {
                        rest[j] = x;
                        break;
                    }
            }
        }
        for (unsigned j = 0; j < degree; j++)
            for (unsigned x = 0; x < f.q; x++)
                if (f.sum[x][rest[degree - 1 - j]] == 0) {
                    put(w, x);
                    break;
                }
    }
}

static void binary_cyclic(struct work *w, unsigned n, unsigned k, unsigned t, uint32_t generator, unsigned powers)
{
    unsigned coefficients[MOST_PLACES];
    for (unsigned i = 0; i <= n - k; i++)
        coefficients[i] = generator >> i & 1;
    put_head(w, 0, 2, n, k, t, 2, n);
    put(w, 1), put(w, 2), put(w, powers);
    put_cyclic_rows(w, 0, 2, n, k, coefficients);
}

/* Ternary, n = 11, k = 6, t = 2: x^5 + x^4 + 2x^3 + x^2 + 2, with all shifts and the powers of 3. */
static void ternary_cyclic(struct work *w)
{
    const unsigned generator[] = {2, 0, 1, 2, 1, 1};
    put_head(w, 0, 3, 11, 6, 2, 2, 11);
    put(w, 1), put(w, 3), put(w, 5);
    put_cyclic_rows(w, 0, 3, 11, 6, generator);
}

/* Sixteen symbols, n = 15, k = 4, t = 3: the generator has the first eleven powers of x as its zeros; all shifts. */
static void sixteen_symbols(struct work *w)
{
    struct field f;
    unsigned generator[16] = {1}, zero = 1;
    fill_field(&f, 1, 4);
    for (unsigned degree = 0; degree < 11; degree++) {
        zero = f.product[zero][2];
        for (unsigned j = degree + 1; j-- > 0;) {
            generator[j + 1] = j + 1 > degree ? generator[j] : f.sum[generator[j + 1]][generator[j]];
            generator[j] = f.product[generator[j]][zero];
            if (j + 1 <= degree)
                continue;
        }
    }
    put_head(w, 1, 4, 15, 4, 3, 1, 15);
    put(w, 1);
    put_cyclic_rows(w, 1, 4, 15, 4, generator);
}

/* The 64 codes of the field with x^6 + x + 1 as places: words f(c) with f the trace of a1 c + a3 c^3 + a0, of 16 information bits. */
static unsigned power_in_64(unsigned c, unsigned e)
{
    unsigned power = 1;
    while (e-- > 0)
        power = polynomial_product(power, c, 0x43, 6);
    return power;
}

static unsigned trace_in_64(unsigned c)
{
    unsigned sum = 0;
    for (unsigned i = 0; i < 6; i++) {
        sum ^= c;
        c = polynomial_product(c, c, 0x43, 6);
    }
    return sum & 1;
}

/*
 * The greatest trial: n = 64, k = 16, t = 5 and 512 permutations c -> a c + b of the field of 64 codes, as a table. The words are
 * 1 and the traces of c^i times a code for i = 1, 3 and 9 (c^9 lies in the field of 8 codes), 1 + 6 + 6 + 3 = 16 dimensions.
 */
static void greatest(struct work *w)
{
    static uint8_t matrix[16][64], seen[64];
    unsigned rows = 0, order[64], at[64], places = 0;
    const unsigned exponents[] = {1, 3};
    for (unsigned c = 0; c < 64; c++)
        matrix[rows][c] = 1;
    rows++;
    for (unsigned x = 0; x < 2; x++)
        for (unsigned b = 0; b < 6; b++, rows++)
            for (unsigned c = 0; c < 64; c++)
                matrix[rows][c] = (uint8_t)trace_in_64(polynomial_product(1u << b, power_in_64(c, exponents[x]), 0x43, 6));
    /* c^9 is in the field of 8 codes, whose trace is that of a sixth root: three independent words are found by trying all codes */
    for (unsigned b = 1; b < 64 && rows < 16; b++) {
        uint8_t word[64], all[17][64];
        for (unsigned c = 0; c < 64; c++)
            word[c] = (uint8_t)trace_in_64(polynomial_product(b, power_in_64(c, 9), 0x43, 6));
        memcpy(all, matrix, (size_t)rows * 64);
        memcpy(all[rows], word, 64);
        unsigned rank = 0;
        for (unsigned c = 0; c < 64 && rank <= rows; c++) {
            unsigned r = rank;
            while (r <= rows && !all[r][c])
                r++;
            if (r > rows)
                continue;
            uint8_t swap[64];
            memcpy(swap, all[r], 64), memcpy(all[r], all[rank], 64), memcpy(all[rank], swap, 64);
            for (unsigned i = 0; i <= rows; i++)
                if (i != rank && all[i][c])
                    for (unsigned d = 0; d < 64; d++)
                        all[i][d] ^= all[rank][d];
            rank++;
        }
        if (rank == rows + 1)
            memcpy(matrix[rows++], word, 64);
    }
    for (unsigned c = 0, rank = 0; c < 64 && rank < 16; c++) {
        unsigned r = rank;
        while (r < 16 && !matrix[r][c])
            r++;
        if (r == 16)
            continue;
        uint8_t swap[64];
        memcpy(swap, matrix[r], 64), memcpy(matrix[r], matrix[rank], 64), memcpy(matrix[rank], swap, 64);
        for (unsigned i = 0; i < 16; i++)
            if (i != rank && matrix[i][c])
                for (unsigned d = 0; d < 64; d++)
                    matrix[i][d] ^= matrix[rank][d];
        rank++;
        seen[c] = 1;
        order[places++] = c;
    }
    for (unsigned c = 0; c < 64; c++)
        if (!seen[c])
            order[places++] = c;
    for (unsigned p = 0; p < 64; p++)
        at[order[p]] = p;
    put_head(w, 0, 2, 64, 16, 5, 0, 512);
    for (unsigned i = 0; i < 16; i++)
        for (unsigned p = 16; p < 64; p++)
            put(w, matrix[i][order[p]]);
    for (unsigned i = 0; i < 512; i++) {
        unsigned a = 1 + drawn(63), b = drawn(64);
        for (unsigned p = 0; p < 64; p++)
            put(w, at[polynomial_product(a, order[p], 0x43, 6) ^ b]);
    }
}

/* Codewords of random messages, each with up to t wrong symbols. */
static void draw_blocks(const struct scheme *s, uint8_t *blocks)
{
    for (unsigned x = 0; x < BLOCKS; x++) {
        uint8_t message[MOST_INFORMATION], *block = blocks + x * s->n;
        for (unsigned i = 0; i < s->k; i++)
            message[i] = (uint8_t)drawn(s->q);
        plain_encode(s, message, block);
        for (unsigned e = x % (s->t + 1); e > 0; e--) {
            unsigned p = drawn(s->n);
            block[p] = (uint8_t)((block[p] + 1 + drawn(s->q - 1)) % s->q);
        }
    }
}

static void fail(const struct work *w, const char *what)
{
    fprintf(stderr, "bench: %s: %s\n", w->name, what);
    exit(1);
}

/* Both have to answer alike on every block. */
static void compare(const struct work *w, const struct scheme *s, const uint8_t *blocks)
{
    static uint8_t own[BLOCKS * MOST_PLACES], other[MOST_PLACES];
    uint64_t place;
    memset(own, UNWRITTEN, sizeof own);
    unsigned refusal = dulvarech_rounds(w->file, w->size, blocks, BLOCKS * s->n, own, BLOCKS * s->n, 1);
    if (refusal != plain_trial(s, &place) || refusal != 0)
        fail(w, "the trial refuses, or the two differ");
    for (unsigned x = 0; x < BLOCKS; x++) {
        memset(other, UNWRITTEN, sizeof other);
        plain_correct(s, blocks + x * s->n, other);
        if (memcmp(own + x * s->n, other, s->n) != 0)
            fail(w, "a block is corrected to another word");
    }
}

struct times {
    double trial, correction;
};

/* The entry tries the scheme before it corrects, so a correction is a difference: of the least times, and not the least of differences. */
static struct times time_product(const struct work *w, const struct scheme *s, const uint8_t *blocks)
{
    static uint8_t out[BLOCKS * MOST_PLACES];
    struct times best = {1e9, 0};
    double whole = 1e9;
    for (unsigned run = 0; run < RUNS; run++) {
        double start = seconds();
        for (unsigned x = 0; x < w->trials; x++)
            dulvarech_rounds(w->file, w->size, blocks, 0, out, 0, 0);
        double tried = (seconds() - start) / w->trials;
        start = seconds();
        dulvarech_rounds(w->file, w->size, blocks, BLOCKS * s->n, out, BLOCKS * s->n, w->rounds);
        double both = seconds() - start;
        best.trial = tried < best.trial ? tried : best.trial;
        whole = both < whole ? both : whole;
    }
    best.correction = (whole - best.trial) / w->rounds / BLOCKS;
    return best;
}

static struct times time_plain(const struct work *w, const struct scheme *s, const uint8_t *blocks)
{
    static uint8_t out[MOST_PLACES];
    struct times best = {1e9, 1e9};
    uint64_t place;
    for (unsigned run = 0; run < RUNS; run++) {
        double start = seconds();
        for (unsigned x = 0; x < w->trials; x++)
            plain_trial(s, &place);
        double tried = (seconds() - start) / w->trials;
        start = seconds();
        for (unsigned round = 0; round < w->rounds; round++)
            for (unsigned x = 0; x < BLOCKS; x++)
                plain_correct(s, blocks + x * s->n, out);
        double corrected = (seconds() - start) / w->rounds / BLOCKS;
        best.trial = tried < best.trial ? tried : best.trial;
        best.correction = corrected < best.correction ? corrected : best.correction;
    }
    return best;
}

static void run(struct work *w)
{
    static uint8_t blocks[BLOCKS * MOST_PLACES];
    struct scheme s;
    if (!plain_open(&s, w->file, w->size))
        fail(w, "the file is not in order");
    draw_blocks(&s, blocks);
    compare(w, &s, blocks);
    struct times own = time_product(w, &s, blocks), plain = time_plain(w, &s, blocks);
    printf("%-28s trial %10.1f us, plain %10.1f us, ratio %5.2f   correct %7.3f us, plain %7.3f us, ratio %5.2f\n", w->name,
           own.trial * 1e6, plain.trial * 1e6, own.trial / plain.trial, own.correction * 1e6, plain.correction * 1e6,
           own.correction / plain.correction);
}

int main(void)
{
    static struct work works[5] = {
        {.name = "(23,12,3), 92 permutations", .trials = 5, .rounds = 40},
        {.name = "(31,16,3), 155 permutations", .trials = 2, .rounds = 40},
        {.name = "(15,4,3), q = 16, 15 shifts", .trials = 2, .rounds = 400},
        {.name = "(11,6,2), q = 3, 55", .trials = 50, .rounds = 100},
        {.name = "(64,16,5), 512, greatest", .trials = 1, .rounds = 400},
    };
    binary_cyclic(&works[0], 23, 12, 3, 3189, 4);
    binary_cyclic(&works[1], 31, 16, 3, 62961, 5);
    sixteen_symbols(&works[2]);
    ternary_cyclic(&works[3]);
    greatest(&works[4]);
    for (size_t i = 0; i < sizeof works / sizeof *works; i++)
        run(&works[i]);
    return 0;
}
