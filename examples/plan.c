/* Draws the plan of an encrypted file: plan FILE_LENGTH [BLOCK_SIZE]. */
#include <errno.h>
#include <inttypes.h>
#include <stdio.h>
#include <stdlib.h>
#include "ags1.h"

enum { MOST_LINES = 16, WIDTH = 40 };

/* A decimal number of at most `most`; 0 where the word is none. */
static int number(const char *word, uint64_t most, uint64_t *value)
{
    char *end;
    if (word[0] < '0' || word[0] > '9')
        return 0;
    errno = 0;
    unsigned long long n = strtoull(word, &end, 10);
    if (errno != 0 || *end != '\0' || n > most)
        return 0;
    *value = n;
    return 1;
}

static void bar(uint64_t bytes, uint64_t full)
{
    uint64_t filled = bytes * WIDTH / full;
    for (uint64_t i = 0; i < WIDTH; i++)
        putchar(i < filled ? '#' : '.');
}

int main(int argc, char **argv)
{
    uint64_t length, size = 1048576;
    if (argc < 2 || argc > 3 || !number(argv[1], UINT64_MAX, &length) || (argc == 3 && !number(argv[2], UINT32_MAX, &size))) {
        fprintf(stderr, "usage: plan FILE_LENGTH [BLOCK_SIZE]\n");
        return 2;
    }
    struct ags1_length plan = ags1_plaintext_length(length, (uint32_t)size);
    if (plan.code != 0) {
        fprintf(stderr, "plan: refused by code %" PRIu32 "\n", plan.code);
        return 1;
    }
    printf("%" PRIu64 " blocks, %" PRIu64 " bytes of plaintext\n", plan.block_count, plan.plaintext_length);
    for (uint64_t i = 0; i < plan.block_count; i++) {
        uint64_t left = plan.plaintext_length - i * size;
        uint64_t bytes = left < size ? left : size;
        if (i == MOST_LINES) {
            printf("  and %" PRIu64 " more\n", plan.block_count - i);
            break;
        }
        printf("  block %-6" PRIu64 " ", i);
        bar(bytes, size);
        printf(" %" PRIu64 "\n", bytes);
    }
    return 0;
}
