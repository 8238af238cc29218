/* Reads a sheet on standard input and writes the block that has an id: its first line, its line count and its canonical text, parted by tabs. It builds the
 * index of the sheet once, looks the id up over its rows, as a display does at each key press, and reads the block at the offset that it finds. Build it
 * with `door/test`, or
 *
 *     cc door/find.c target/door/libdoor.a -o find
 *     ./find v17 <examples/scope.sheet
 */
#include "bridlesnow.h"
#include <stdio.h>
#include <string.h>

static uint8_t text[BRIDLESNOW_MAX + 1], join[BRIDLESNOW_MAX], index_text[BRIDLESNOW_INDEX], out[BRIDLESNOW_MAX];
static size_t table[BRIDLESNOW_RECORDS * BRIDLESNOW_RECORD];

int main(int words, char **word)
{
    size_t built[2], found[4], told[5]; /* records and bytes; whether there is one, its line, count and offset; what is told of the block */
    if (words != 2) {
        fprintf(stderr, "usage: find ID <SHEET\n");
        return 2;
    }
    size_t n = fread(text, 1, sizeof text, stdin); /* one byte more than a sheet may have, so that a longer one is refused */
    uint8_t number = bridlesnow_index_build(text, n, join, sizeof join, table, sizeof table / sizeof *table, index_text, sizeof index_text, built, 2);
    if (number == 0) {
        bridlesnow_index_find_row(index_text, built[1], table, sizeof table / sizeof *table, built[0], (const uint8_t *)word[1], strlen(word[1]), found, 4);
        if (found[0] == 0) {
            printf("not found\n");
            return 3;
        }
        number = bridlesnow_read_block_at(text, n, found[3], join, sizeof join, out, sizeof out, told, 5);
    }
    if (number != 0) {
        printf("refused\t%d\n", number);
        return 1;
    }
    printf("%zu\t%zu\t", found[1], found[2]);
    fwrite(out, 1, told[4], stdout);
    putchar('\n');
    return 0;
}
