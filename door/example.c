/* Reads a sheet on standard input and writes its report: a line for each block, with its first line, line count and canonical text, parted by tabs, or
 * with a number where it is refused. Build it with `door/test`, or
 *
 *     cc door/example.c target/door/libdoor.a -o example
 */
#include "bridlesnow.h"
#include <stdio.h>

static uint8_t text[BRIDLESNOW_MAX + 1], join[BRIDLESNOW_MAX], out[2 * BRIDLESNOW_LINE];

int main(void)
{
    size_t n = fread(text, 1, sizeof text, stdin); /* one byte more than a sheet may have, so that a longer one is refused */
    size_t told[3];                                /* bytes laid, place and line to go on at */
    uint8_t number = bridlesnow_report_start(text, n, join, sizeof join, out, sizeof out, told, 3);
    fwrite(out, 1, told[0], stdout);
    while (told[2] != 0) {
        number = bridlesnow_report_part(text, n, told[1], told[2], join, sizeof join, out, sizeof out, told, 3);
        fwrite(out, 1, told[0], stdout);
    }
    return number != 0; /* 1 or 2, with buffers of these sizes; a line of the report says so too */
}
