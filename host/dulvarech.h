/*
 * dulvarech.h - one call that corrects one block by the scheme of a scheme file.
 *
 * Link with libhost.a. The call allocates nothing, keeps nothing between calls, reads no file and prints nothing.
 * It may be called from several threads at once, with outputs of their own.
 *
 *     uint8_t out[DULVARECH_MOST_PLACES];
 *     uint8_t answer = dulvarech_correct(file, file_size, block, n, out, n);
 *     if (answer <= DULVARECH_MOST_DISTANCE) {
 *         ... out holds the corrected block, answer says how many symbols were wrong ...
 *     } else {
 *         ... out is as it was, answer - DULVARECH_REFUSED is the number of the refusal ...
 *     }
 */
#ifndef DULVARECH_H
#define DULVARECH_H

#include <stddef.h>
#include <stdint.h>

#ifdef __cplusplus
extern "C" {
#endif

/* The number of places n of a scheme's blocks, as its file has it. It is from 2 to 64 in every file that is accepted. */
#define DULVARECH_PLACES_AT 7
#define DULVARECH_MOST_PLACES 64

/* The least and the greatest number of bytes of a scheme file. Any other number is refused like any other wrong length. */
#define DULVARECH_LEAST_FILE 15
#define DULVARECH_MOST_FILE 33549

/* An answer up to 5 is a distance. A refusal is answered as 100 and its number. */
#define DULVARECH_MOST_DISTANCE 5
#define DULVARECH_REFUSED 100

/*
 * The refusals. The first that holds is answered, in this order:
 * the file (118 to 122), its kind (101), its list (102), its draft (103 to 105), its trial (106 to 112), the block (113 to 117).
 *
 * Some cannot be met through this call, and have a name for completeness. An accepted file has no kind, table, n, k, t or
 * number of row codes outside their values, so 101 to 104 and 106 do not come. The call makes its own scheme and corrects
 * one block by it, so 113 (another kind, list or rows than those of the trial) and 116 (a full tally) do not come.
 */
enum dulvarech_answer {
    DULVARECH_CLEAN = 0,            /* the block is a codeword, and was copied to the output */
                                    /* 1 to 5: so many symbols were wrong, and the output holds the codeword */

    DULVARECH_KIND_RANGE = 101,     /* b outside 2 to 16, w outside 2 to 4 */
    DULVARECH_TABLE_SHAPE = 102,    /* a table that is no whole rows of n bytes, or more than 512 of them */
    DULVARECH_CODE_SIZE = 103,      /* n outside 2 to 64, k outside 1 to 16, or k not below n */
    DULVARECH_ERROR_COUNT = 104,    /* t outside 1 to 5 */
    DULVARECH_MESSAGE_COUNT = 105,  /* more than 65,536 messages: q to the power k */
    DULVARECH_TRIAL_MISMATCH = 106, /* check rows that are not k * (n - k) codes */
    DULVARECH_ROW_CODE = 107,       /* a check row code that is q or more */
    DULVARECH_LIST_SHAPE = 108,     /* a list for another n, or an empty one */
    DULVARECH_NO_PERMUTATION = 109, /* a list entry that is no permutation */
    DULVARECH_LIGHT_CODEWORD = 110, /* a non-zero codeword with at most 2t non-zero symbols: t is too great for this code */
    DULVARECH_NOT_KEPT = 111,       /* a permutation that takes a codeword to no codeword */
    DULVARECH_UNCLEARED = 112,      /* t places that no permutation takes to check places */
    DULVARECH_SCHEME_MISMATCH = 113,/* a call with another kind, list or rows */
    DULVARECH_WORD_LENGTH = 114,    /* the block or the output is not n bytes */
    DULVARECH_SYMBOL_RANGE = 115,   /* a symbol of the block is q or more */
    DULVARECH_TALLY_FULL = 116,     /* too many blocks */
    DULVARECH_LOST = 117,           /* no codeword lies within t places of the block */
    DULVARECH_FILE_SHORT = 118,     /* the file has fewer than 13 bytes */
    DULVARECH_FILE_MARK = 119,      /* it does not begin with 50 44 53 (hex) */
    DULVARECH_FILE_VERSION = 120,   /* its version is not 1 */
    DULVARECH_FILE_FIELD = 121,     /* a header field is outside its values */
    DULVARECH_FILE_LENGTH = 122     /* it has another length than its header gives */
};

/*
 * Opens the scheme file, tries its scheme, and corrects the block.
 *
 * file, file_size    the whole scheme file; it is only read
 * block, block_size  the block as received, n symbols of one byte each, each below q; it is only read
 * out, out_size      where the corrected block goes: n bytes
 *
 * Answers the distance between block and output, 0 to 5, or 100 and the number of the first refusal, 101 to 122.
 * On a distance all n bytes of the output are written; on a refusal the output is as it was.
 *
 * Any sizes and any bytes may be handed over; what does not fit is refused. The caller owes, as for memcpy: each pointer
 * points to as many bytes as its size says, and is not NULL even at size 0; nothing else writes these bytes during the call;
 * the output overlaps neither the file nor the block.
 *
 * Each call tries the scheme anew, and the trial is the long part: with n = 7 and t = 1 it is a matter of microseconds,
 * with n = 64 and t = 5 it goes through 7,624,512 sets of places. The call needs some 10 kilobytes of stack.
 */
uint8_t dulvarech_correct(const uint8_t *file, size_t file_size,
                          const uint8_t *block, size_t block_size,
                          uint8_t *out, size_t out_size);

#ifdef __cplusplus
}
#endif

#endif
