/* Reads a sheet on standard input and writes the columns that the block at a line says, for a valve table, one a line: align, vertical align and width,
 * parted by tabs, with a `-` where the block says none. A width is written as it stands in the sheet, backslashes too. Build it with `door/test`, or
 *
 *     cc door/columns.c target/door/libdoor.a -o columns
 *     echo '{aligns="left,right" valigns=top widths="30\%,"}' | ./columns 1
 */
#include "bridlesnow.h"
#include <stdio.h>
#include <stdlib.h>

static uint8_t text[BRIDLESNOW_MAX + 1], join[BRIDLESNOW_MAX];
static size_t numbers[BRIDLESNOW_COLUMNS * BRIDLESNOW_COLUMN];

int main(int words, char **word)
{
    static const char *const aligns[] = {"-", "left", "right", "center"}, *const valigns[] = {"-", "top", "middle", "bottom"};
    size_t told[1]; /* how many columns there are */
    if (words != 2) {
        fprintf(stderr, "usage: columns LINE <SHEET\n");
        return 2;
    }
    size_t n = fread(text, 1, sizeof text, stdin); /* one byte more than a sheet may have, so that a longer one is refused */
    uint8_t number = bridlesnow_table_columns(text, n, strtoul(word[1], NULL, 10), join, sizeof join, numbers, sizeof numbers / sizeof *numbers, told, 1);
    if (number != 0) {
        printf("refused\t%d\n", number);
        return 1;
    }
    for (const size_t *column = numbers; column < numbers + told[0] * BRIDLESNOW_COLUMN; column += BRIDLESNOW_COLUMN) {
        const uint8_t *over = column[2] == 3 ? join : text; /* a wrapped block's widths stand in what was joined */
        printf("%s\t%s\t", aligns[column[0]], valigns[column[1]]);
        if (column[2] == 0)
            putchar('-');
        else
            fwrite(over + column[3], 1, column[4] - column[3], stdout);
        putchar('\n');
    }
    return 0;
}
