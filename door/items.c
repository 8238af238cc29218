/* Lists the items of the block at a line of a sheet on standard input, a line for each: name, tab, value as it is meant, without quotes and backslashes. Build it
 * with `door/test`, or
 *
 *     cc door/items.c target/door/libdoor.a -o items
 *     ./items 9 <examples/wrapped-variant.sheet
 */
#include "bridlesnow.h"
#include <stdio.h>
#include <stdlib.h>

static uint8_t text[BRIDLESNOW_MAX + 1], join[BRIDLESNOW_MAX], out[BRIDLESNOW_MAX + 5];

int main(int words, char **word)
{
    size_t told[3]; /* how many items there are, and the lengths of the name and of the value of the one that was laid */
    if (words != 2) {
        fprintf(stderr, "usage: items LINE <SHEET\n");
        return 2;
    }
    size_t line = strtoul(word[1], NULL, 10);
    size_t n = fread(text, 1, sizeof text, stdin); /* one byte more than a sheet may have, so that a longer one is refused */
    for (size_t item = 0;; item++) {
        uint8_t number = bridlesnow_item_at(text, n, line, item, join, sizeof join, out, sizeof out, told, 3);
        if (number != 0) {
            printf("refused\t%s\t%d\n", word[1], number);
            return 1;
        }
        if (item >= told[0])
            return 0;
        /* Written by their lengths: no NUL ends a text, and one may stand in a value. */
        fwrite(out, 1, told[1], stdout);
        putchar('\t');
        fwrite(out + told[1], 1, told[2], stdout);
        putchar('\n');
    }
}
