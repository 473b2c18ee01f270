/*
 * Folds the table in a file, or on standard input where no file is named. Prints the text of the program fold: the
 * period and a line for each operation, or one line `refused n a b`. Where the table is accepted, it reads the rows of
 * the reply, unfolds the reply again, and says whether the table's starts came back from both.
 */
#include <stdio.h>
#include <string.h>

#include "trevozhil.h"

/* No answer depends on more than three bytes behind the longest table. */
static uint8_t table[TREVOZHIL_LONGEST_TABLE + 3];
static uint8_t text[TREVOZHIL_LONGEST_TEXT];
static uint8_t reply[TREVOZHIL_LONGEST_REPLY];
static uint8_t starts[TREVOZHIL_LONGEST_STARTS];

/* The number in two bytes, the most significant first. */
static unsigned number_at(const uint8_t *bytes) {
    return bytes[0] * 256u + bytes[1];
}

/*
 * The start that row i of the reply came from. The period is in the reply's first field, of 5 bytes; each later field
 * has 7 bytes and is a row: the folded start, and the number of periods before it.
 */
static unsigned start_of_row(size_t i) {
    const uint8_t *row = reply + 5 + 7 * i;
    return number_at(row + 5) * number_at(reply + 3) + number_at(row + 3);
}

/*
 * Whether so many bytes of starts, and the rows, are those of an accepted table of so many bytes. Its operations come
 * after the field of the turns, which is at 11; each is a field with the tag 4, whose first number is the start, and is 3
 * bytes longer than its length says. The decider's field may come behind them.
 */
static int came_back(uint64_t starts_length, size_t table_length) {
    size_t i = 0;
    size_t first = 11 + 3 + number_at(table + 12);
    for (size_t at = first; at < table_length && table[at] == 4; at += 3 + number_at(table + at + 1)) {
        if (memcmp(starts + 2 * i, table + at + 3, 2) != 0 || start_of_row(i) != number_at(table + at + 3)) {
            return 0;
        }
        i++;
    }
    return 2 * i == starts_length;
}

static void fold(size_t length) {
    uint64_t a, b;
    if (trevozhil_fold(table, length, text, sizeof text, &a, &b) == 0) {
        fwrite(text, 1, a, stdout);
    }
    if (trevozhil_plan(table, length, reply, sizeof reply, &a, &b) == 0) {
        uint32_t number = trevozhil_unfold(reply, a, starts, sizeof starts, &a, &b);
        int good = number == 0 && came_back(a, length);
        puts(good ? "the starts came back" : "the starts did not come back");
    }
}

int main(int argc, char **argv) {
    FILE *input = argc > 1 ? fopen(argv[1], "rb") : stdin;
    if (input == NULL) {
        perror(argv[1]);
        return 1;
    }
    size_t length = fread(table, 1, sizeof table, input);
    if (ferror(input)) {
        perror("fold");
        return 1;
    }
    fold(length);
    return 0;
}
