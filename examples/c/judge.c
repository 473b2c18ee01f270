/*
 * Judges the table in a file, or on standard input where no file is named, and prints one line:
 * `accepted`, or `refused n a b`.
 */
#include <inttypes.h>
#include <stdio.h>

#include "trevozhil.h"

/* No verdict depends on more than three bytes behind the longest table. */
static uint8_t table[TREVOZHIL_LONGEST_TABLE + 3];

int main(int argc, char **argv) {
    FILE *input = argc > 1 ? fopen(argv[1], "rb") : stdin;
    if (input == NULL) {
        perror(argv[1]);
        return 1;
    }
    size_t length = fread(table, 1, sizeof table, input);
    if (ferror(input)) {
        perror("judge");
        return 1;
    }
    uint64_t a, b;
    uint32_t number = trevozhil_judge(table, length, &a, &b);
    if (number == 0) {
        puts("accepted");
    } else {
        printf("refused %" PRIu32 " %" PRIu64 " %" PRIu64 "\n", number, a, b);
    }
    return 0;
}
