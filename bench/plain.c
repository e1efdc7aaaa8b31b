/* See plain.h. */
#include <string.h>
#include "plain.h"

static unsigned add(const struct scheme *s, unsigned a, unsigned b)
{
    return s->family == 0 ? (a + b) % s->q : a ^ b;
}

/* The product of two polynomials over bits, reduced by x^w + x + 1 term by term. */
static unsigned multiply_polynomials(unsigned w, unsigned a, unsigned b)
{
    unsigned product = 0;
    while (b != 0) {
        if (b & 1)
            product ^= a;
        b >>= 1;
        a <<= 1;
        if (a >> w & 1)
            a ^= (1u << w) + 3;
    }
    return product;
}

static unsigned multiply(const struct scheme *s, unsigned a, unsigned b)
{
    return s->family == 0 ? a * b % s->q : multiply_polynomials(s->base, a, b);
}

/* Where permutation i takes place p. */
static unsigned target(const struct scheme *s, unsigned i, unsigned p)
{
    if (s->form == 0)
        return s->table[i * s->n + p];
    if (s->form == 2) {
        unsigned power = 1;
        for (unsigned e = i / s->count; e > 0; e--)
            power = power * s->factor % s->n;
        p = power * p % s->n;
        i %= s->count;
    }
    return (p + s->step * i) % s->n;
}

int plain_open(struct scheme *s, const uint8_t *file, size_t size)
{
    if (size < 13 || memcmp(file, "PDS\0\1", 5) != 0)
        return 0;
    s->family = file[5], s->base = file[6], s->n = file[7], s->k = file[8], s->t = file[9], s->form = file[10];
    s->count = file[11] * 256u + file[12];
    s->q = s->family == 0 ? s->base : 1u << s->base;
    size_t at = 13, codes = (size_t)s->k * (s->n - s->k);
    s->step = s->form > 0 && at < size ? file[at++] : 0;
    s->factor = s->form == 2 && at < size ? file[at++] : 0;
    s->powers = s->form == 2 && at < size ? file[at++] : 1;
    s->rows = file + at;
    s->table = file + at + codes;
    s->permutations = s->count * s->powers < 512 ? s->count * s->powers : 512;
    return size == at + codes + (s->form == 0 ? (size_t)s->count * s->n : 0);
}

void plain_encode(const struct scheme *s, const uint8_t *message, uint8_t *word)
{
    unsigned width = s->n - s->k;
    memcpy(word, message, s->k);
    for (unsigned j = 0; j < width; j++) {
        unsigned sum = 0;
        for (unsigned i = 0; i < s->k; i++)
            sum = add(s, sum, multiply(s, message[i], s->rows[i * width + j]));
        word[s->k + j] = (uint8_t)sum;
    }
}

static int is_codeword(const struct scheme *s, const uint8_t *word)
{
    uint8_t other[MOST_PLACES];
    plain_encode(s, word, other);
    return memcmp(word, other, s->n) == 0;
}

static unsigned distance(const uint8_t *v, const uint8_t *w, unsigned n)
{
    unsigned count = 0;
    for (unsigned p = 0; p < n; p++)
        count += v[p] != w[p];
    return count;
}

/* The targets of permutation i; 0 where they are not n different ones below n. */
static int permutation(const struct scheme *s, unsigned i, uint8_t *targets)
{
    uint8_t seen[MOST_PLACES] = {0};
    for (unsigned p = 0; p < s->n; p++) {
        unsigned to = target(s, i, p);
        if (to >= s->n || seen[to])
            return 0;
        seen[to] = 1;
        targets[p] = (uint8_t)to;
    }
    return 1;
}

unsigned plain_correct(const struct scheme *s, const uint8_t *block, uint8_t *out)
{
    for (unsigned i = 0; i < s->permutations; i++) {
        uint8_t targets[MOST_PLACES], moved[MOST_PLACES], word[MOST_PLACES], back[MOST_PLACES];
        if (!permutation(s, i, targets))
            continue;
        for (unsigned p = 0; p < s->n; p++)
            moved[targets[p]] = block[p];
        plain_encode(s, moved, word);
        unsigned d = distance(moved, word, s->n);
        if (d > s->t)
            continue;
        for (unsigned p = 0; p < s->n; p++)
            back[p] = word[targets[p]];
        if (!is_codeword(s, back))
            continue;
        memcpy(out, back, s->n);
        return d;
    }
    return 117;
}

/* The smallest non-zero message whose codeword has at most 2t symbols other than 0, or 0. */
static uint64_t light_message(const struct scheme *s)
{
    uint64_t messages = 1;
    for (unsigned i = 0; i < s->k; i++)
        messages *= s->q;
    for (uint64_t x = 1; x < messages; x++) {
        uint8_t message[MOST_INFORMATION], word[MOST_PLACES];
        uint64_t rest = x;
        for (unsigned i = s->k; i-- > 0; rest /= s->q)
            message[i] = (uint8_t)(rest % s->q);
        plain_encode(s, message, word);
        unsigned weight = 0;
        for (unsigned p = 0; p < s->n; p++)
            weight += word[p] != 0;
        if (weight <= 2 * s->t)
            return x;
    }
    return 0;
}

/* Whether permutation i takes the codeword of each unit message to a codeword. */
static int keeps(const struct scheme *s, unsigned i)
{
    uint8_t targets[MOST_PLACES], message[MOST_INFORMATION], word[MOST_PLACES], image[MOST_PLACES];
    permutation(s, i, targets);
    for (unsigned j = 0; j < s->k; j++) {
        memset(message, 0, sizeof message);
        message[j] = 1;
        plain_encode(s, message, word);
        for (unsigned p = 0; p < s->n; p++)
            image[targets[p]] = word[p];
        if (!is_codeword(s, image))
            return 0;
    }
    return 1;
}

/* Whether some permutation takes each place of the set to a check place. */
static int cleared(const struct scheme *s, uint8_t (*targets)[MOST_PLACES], const unsigned *set)
{
    for (unsigned i = 0; i < s->permutations; i++) {
        unsigned j = 0;
        while (j < s->t && targets[i][set[j]] >= s->k)
            j++;
        if (j == s->t)
            return 1;
    }
    return 0;
}

/* The next set in dictionary order; 0 after the last. */
static int next_set(const struct scheme *s, unsigned *set)
{
    for (unsigned j = s->t; j-- > 0;)
        if (set[j] + (s->t - j) < s->n) {
            unsigned first = set[j] + 1;
            for (unsigned l = j; l < s->t; l++)
                set[l] = first + (l - j);
            return 1;
        }
    return 0;
}

/* The first set of t places that no permutation clears, as a sum of powers of two, or 0. */
static uint64_t uncleared(const struct scheme *s)
{
    static uint8_t targets[512][MOST_PLACES];
    unsigned set[MOST_ERRORS];
    for (unsigned i = 0; i < s->permutations; i++)
        permutation(s, i, targets[i]);
    for (unsigned j = 0; j < s->t; j++)
        set[j] = j;
    do {
        if (!cleared(s, targets, set)) {
            uint64_t sum = 0;
            for (unsigned j = 0; j < s->t; j++)
                sum |= UINT64_C(1) << set[j];
            return sum;
        }
    } while (next_set(s, set));
    return 0;
}

unsigned plain_trial(const struct scheme *s, uint64_t *place)
{
    uint8_t targets[MOST_PLACES];
    *place = 0;
    for (unsigned x = 0; x < s->k * (s->n - s->k); x++)
        if (s->rows[x] >= s->q)
            return 7;
    if (s->permutations == 0)
        return 8;
    for (unsigned i = 0; i < s->permutations; i++)
        if (!permutation(s, i, targets))
            return 9;
    if ((*place = light_message(s)) != 0)
        return 10;
    for (unsigned i = 0; i < s->permutations; i++)
        if (!keeps(s, i))
            return 11;
    if ((*place = uncleared(s)) != 0)
        return 12;
    return 0;
}
