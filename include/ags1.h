/* The length of an AGS1 encrypted file, for C. The function is proved; this header repeats its signature by hand. */
#ifndef AGS1_H
#define AGS1_H

#include <stdint.h>

/* What the length call answers: code 0 and the two numbers, or the code of the refusal and zeros.
 *
 *   4  BlockSize            the block size is not within 1 to 4,294,967,267
 *   1  FileTooShort         the file is shorter than its header of 8 bytes
 *   2  CiphertextTooShort   after its full blocks the file has 1 to 27 bytes, too few for a block
 *
 * Where several apply, the first of them in this order is given. */
struct ags1_length {
    uint64_t plaintext_length;
    uint64_t block_count;
    uint32_t code;
};

/* The plaintext bytes and the blocks of a file of file_length bytes, whose full blocks hold block_size plaintext bytes.
 * Every pair of arguments is allowed. */
struct ags1_length ags1_plaintext_length(uint64_t file_length, uint32_t block_size);

#endif
