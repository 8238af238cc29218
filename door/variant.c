/* Reads a sheet on standard input and writes the settings of a variant: the block at one line, the common one, merged with the block at another line, the
 * variant's, which wins. Either may be wrapped. Build it with `door/test`, or
 *
 *     cc door/variant.c target/door/libdoor.a -o variant
 *     ./variant 5 9 <examples/wrapped-variant.sheet
 */
#include "bridlesnow.h"
#include <stdio.h>
#include <stdlib.h>

static uint8_t text[BRIDLESNOW_MAX + 1], join[BRIDLESNOW_MAX], other_join[BRIDLESNOW_MAX], out[BRIDLESNOW_MAX];

int main(int words, char **word)
{
    static const char *const steps[] = {"", "the common block", "the variant's block", "the merge or its writing"};
    size_t told[4]; /* which step refuses, the length of the canonical text, the lines of both blocks */
    if (words != 3) {
        fprintf(stderr, "usage: variant COMMON-LINE VARIANT-LINE <SHEET\n");
        return 2;
    }
    size_t n = fread(text, 1, sizeof text, stdin); /* one byte more than a sheet may have, so that a longer one is refused */
    uint8_t number = bridlesnow_merge_blocks(text, n, strtoul(word[1], NULL, 10), strtoul(word[2], NULL, 10), join, sizeof join,
                                             other_join, sizeof other_join, out, sizeof out, told, 4);
    if (number != 0) {
        printf("refused\t%s\t%d\n", steps[told[0]], number);
        return 1;
    }
    fwrite(out, 1, told[1], stdout);
    putchar('\n');
    return 0;
}
