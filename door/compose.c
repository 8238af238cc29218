/* Reads a sheet on standard input and writes what the blocks at some of its lines come to, merged in the order in which the lines are named: common,
 * family, variant, as many as there are. Each may be wrapped. Their canonical texts are put back to back, and that is read as one line. Build it with
 * `door/test`, or
 *
 *     cc door/compose.c target/door/libdoor.a -o compose
 *     ./compose 5 9 14 <examples/wrapped-variant.sheet
 */
#include "bridlesnow.h"
#include <stdio.h>
#include <stdlib.h>

static uint8_t text[BRIDLESNOW_MAX + 1], join[BRIDLESNOW_MAX], line[BRIDLESNOW_MAX], out[BRIDLESNOW_MAX];

int main(int words, char **word)
{
    size_t told[5];  /* the last of a block's five numbers is the length of its canonical text; a line has that alone */
    size_t used = 0; /* how much of the line is there */
    if (words < 2) {
        fprintf(stderr, "usage: compose LINE.. <SHEET\n");
        return 2;
    }
    size_t n = fread(text, 1, sizeof text, stdin); /* one byte more than a sheet may have, so that a longer one is refused */
    for (int i = 1; i < words; i++) {
        uint8_t number = bridlesnow_parse_standalone_attrs_block(text, n, strtoul(word[i], NULL, 10), join, sizeof join,
                                                                 line + used, sizeof line - used, told, 5);
        if (number != 0) { /* a 10 behind the first block: the line has no room, and no block of it is at fault */
            printf("refused\t%s\t%d\n", number == 10 && used > 0 ? "all" : word[i], number);
            return 1;
        }
        used += told[4];
    }
    uint8_t number = bridlesnow_parse_standalone_attrs(line, used, 1, out, sizeof out, told, 1);
    if (number != 0) { /* 6 or 7, of all of them together */
        printf("refused\tall\t%d\n", number);
        return 1;
    }
    fwrite(out, 1, told[0], stdout);
    putchar('\n');
    return 0;
}
