/* Reads the block whose brace stands at a byte of standard input, and writes its canonical text or the number of its refusal; where its payload has no reading, also
 * the block up to the byte at which it went wrong. Build it with `door/test`, or
 *
 *     cc door/brace.c target/door/libdoor.a -o brace
 *     printf 'the valve{#v17 side=} at the left' | ./brace 9
 */
#include "bridlesnow.h"
#include <stdio.h>
#include <stdlib.h>

static uint8_t text[BRIDLESNOW_MAX + 1], out[BRIDLESNOW_MAX];

int main(int words, char **word)
{
    size_t told[3]; /* the place behind the block, the length of its canonical text, how many bytes of a payload that is 5 can go on */
    if (words != 2) {
        fprintf(stderr, "usage: brace PLACE <TEXT\n");
        return 2;
    }
    size_t place = strtoul(word[1], NULL, 10);
    size_t n = fread(text, 1, sizeof text, stdin); /* one byte more than a text may have, so that a longer one is refused */
    uint8_t number = bridlesnow_read_attrs_at(text, n, place, 0, out, sizeof out, told, 3);
    if (number == 0) {
        fwrite(out, 1, told[1], stdout);
        putchar('\n');
        return 0;
    }
    printf("refused\t%d", number);
    if (number == BRIDLESNOW_NO_READING) {
        putchar('\t');
        fwrite(text + place, 1, 1 + told[2], stdout); /* the brace, and what is counted from behind it */
    }
    putchar('\n');
    return 1;
}
