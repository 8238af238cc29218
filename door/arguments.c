/* What a C caller can pass wrong: no memory at all, too little of it, places and lines that aren't there. Each gets an answer. */
#include "bridlesnow.h"
#include <stdio.h>
#include <string.h>

static int failed;

static void expect(int ok, const char *what)
{
    if (!ok) {
        printf("wrong: %s\n", what);
        failed = 1;
    }
}

#define EXPECT(x) expect((x), #x)

int main(void)
{
    static const uint8_t block[] = "{.a}", wrapped[] = "{a\n b}";
    uint8_t join[8], out[16];
    size_t told[5];

    EXPECT(bridlesnow_is_utf8(NULL, 0));
    EXPECT(bridlesnow_check_text(NULL, 0) == 0);
    EXPECT(!bridlesnow_parse_attrs(NULL, 0));
    EXPECT(!bridlesnow_is_valid_attr_payload(NULL, 0));
    EXPECT(!bridlesnow_valid_wrapped_attr_continuation(NULL, 0));
    EXPECT(bridlesnow_read_attrs_at(NULL, 0, 0, 0, NULL, 0, NULL, 0) == 3);
    EXPECT(bridlesnow_read_attrs_at_tags(NULL, 0, 0, 0, 1, NULL, 0, NULL, 0) == 3);
    EXPECT(bridlesnow_read_attrs_once(NULL, 0, 0, 0, 1, NULL, 0, NULL, 0) == 3);
    EXPECT(bridlesnow_parse_standalone_attrs(NULL, 0, 1, NULL, 0, NULL, 0) == 3);
    EXPECT(bridlesnow_merge_lines(NULL, 0, 1, 2, NULL, 0, NULL, 0) == 3);
    EXPECT(bridlesnow_parse_standalone_attrs_block(NULL, 0, 1, NULL, 0, NULL, 0, NULL, 0) == 3);
    EXPECT(bridlesnow_wrapped_attrs_run_at(NULL, 0, 1, SIZE_MAX, NULL, 0, NULL, 0, NULL, 0) == 3);
    EXPECT(bridlesnow_read_block_at(NULL, 0, SIZE_MAX, NULL, 0, NULL, 0, NULL, 0) == 3);
    EXPECT(bridlesnow_merge_blocks(NULL, 0, 1, 2, NULL, 0, NULL, 0, NULL, 0, NULL, 0) == 3);
    EXPECT(bridlesnow_consume_loose(NULL, 0, 1, NULL, 0, NULL, 0, NULL, 0) == 3);
    EXPECT(bridlesnow_table_columns(NULL, 0, 1, NULL, 0, NULL, 0, NULL, 0) == 3);
    EXPECT(bridlesnow_standalone_attrs_block_len(NULL, 0, 1, NULL, 0, NULL, 0) == 3);
    EXPECT(bridlesnow_indented_wrapped_attrs_block_len(NULL, 0, 1, NULL, 0, NULL, 0) == 3);
    EXPECT(bridlesnow_attrs_block_len_at(NULL, 0, 1, SIZE_MAX, NULL, 0, NULL, 0) == 3);
    EXPECT(bridlesnow_refused_brace_run(NULL, 0, 1, NULL, 0, NULL, 0) == 0);
    EXPECT(bridlesnow_ends_in_refused_brace_run(NULL, 0, NULL, 0, NULL, 0) == 0);
    EXPECT(bridlesnow_report_start(NULL, 0, NULL, 0, NULL, 0, NULL, 0) == 9);
    EXPECT(bridlesnow_report_part(NULL, 0, 0, 0, NULL, 0, NULL, 0, NULL, 0) == 9);
    EXPECT(bridlesnow_variants(NULL, 0, NULL, 0, NULL, 0, NULL, 0) == 9);
    EXPECT(bridlesnow_totals_feed(NULL, 0, NULL, 0, NULL, 0) == 9);
    EXPECT(bridlesnow_totals_feed(NULL, 0, (const uint8_t *)"\377", 1, NULL, 0) == 17);
    EXPECT(bridlesnow_totals_add(NULL, 0, NULL, 0) == 17);
    EXPECT(bridlesnow_totals_text(NULL, 0, NULL, 0, NULL, 0) == 17);
    EXPECT(bridlesnow_index_build(NULL, 0, NULL, 0, NULL, 0, NULL, 0, NULL, 0) == 9);
    EXPECT(bridlesnow_index_read(NULL, 0, NULL, 0, NULL, 0) == 14);
    EXPECT(bridlesnow_index_find(NULL, 0, NULL, 0, NULL, 0) == 14);
    EXPECT(bridlesnow_index_find_row(NULL, 0, NULL, 0, SIZE_MAX, NULL, 0, NULL, 0) == 0);
    EXPECT(bridlesnow_index_mend(NULL, 0, NULL, 0, 0, SIZE_MAX, NULL, 0, NULL, 0, NULL, 0, NULL, 0, NULL, 0) == 9);

    /* No memory to write into, and none to join in. */
    EXPECT(bridlesnow_read_attrs_at(block, 4, 0, 0, NULL, 0, NULL, 0) == 10);
    EXPECT(bridlesnow_read_attrs_at(block, 4, SIZE_MAX, 255, NULL, 0, NULL, 0) == 3);
    EXPECT(bridlesnow_parse_standalone_attrs_block(wrapped, 6, 1, NULL, 0, NULL, 0, NULL, 0) == 9);
    EXPECT(bridlesnow_parse_standalone_attrs_block(wrapped, 6, SIZE_MAX, NULL, 0, NULL, 0, NULL, 0) == 3);

    /* One byte short: refused, and the memory as it was. */
    memset(out, 7, sizeof out);
    EXPECT(bridlesnow_read_attrs_at(block, 4, 0, 0, out, 10, told, 2) == 10);
    EXPECT(told[0] == 4 && told[1] == 0 && out[0] == 7);
    EXPECT(bridlesnow_read_attrs_at(block, 4, 0, 0, out, 11, told, 2) == 0);
    EXPECT(told[0] == 4 && told[1] == 11 && memcmp(out, "{class=\"a\"}\7", 12) == 0);
    /* Where a payload went wrong, as the third number: 0 for anything but 5, and untouched where there is room for two. */
    EXPECT(bridlesnow_read_attrs_at((const uint8_t *)"x{a=}", 5, 1, 0, out, 16, told, 3) == 5);
    EXPECT(told[0] == 0 && told[1] == 0 && told[2] == 2);
    EXPECT(bridlesnow_read_attrs_at((const uint8_t *)"{}", 2, 0, 0, NULL, 0, told, 5) == 5 && told[2] == 0);
    EXPECT(bridlesnow_read_attrs_at((const uint8_t *)"{:abcdefghi}", 12, 0, 255, NULL, 0, told, 3) == 5 && told[2] == 9);
    told[2] = 99;
    EXPECT(bridlesnow_read_attrs_at((const uint8_t *)"{a=}", 4, 0, 0, NULL, 0, told, 2) == 5 && told[0] == 0 && told[1] == 0 && told[2] == 99);
    EXPECT(bridlesnow_read_attrs_at(block, 4, 0, 0, out, 16, told, 3) == 0 && told[0] == 4 && told[1] == 11 && told[2] == 0);
    told[2] = 99;
    EXPECT(bridlesnow_read_attrs_at(block, 3, 0, 0, out, 16, told, 3) == 4 && told[2] == 0);
    told[2] = 99;
    EXPECT(bridlesnow_read_attrs_at(block, 4, 0, 0, out, 10, told, 3) == 10 && told[0] == 4 && told[2] == 0);
    EXPECT(bridlesnow_read_attrs_once((const uint8_t *)"{:1 =}", 6, 0, 0, 1, out, 16, told, 3) == 5 && told[0] == 0 && told[2] == 3);
    EXPECT(bridlesnow_read_attrs_once((const uint8_t *)"{:1}", 4, 0, 0, 1, out, 16, told, 3) == 13 && told[2] == 0);
    EXPECT(bridlesnow_read_attrs_at_tags((const uint8_t *)"{:1 =}", 6, 0, 0, 1, out, 16, told, 3) == 5 && told[0] == 0 && told[2] == 3);
    EXPECT(bridlesnow_read_attrs_at_tags((const uint8_t *)"{:1}", 4, 0, 0, 1, out, 16, told, 3) == 13 && told[2] == 0);
    /* A tag that isn't well-formed: refused where it is looked at, and the memory as it was. */
    memset(out, 7, sizeof out);
    EXPECT(bridlesnow_read_attrs_at_tags((const uint8_t *)"{:1}", 4, 0, 0, 1, out, 16, told, 2) == 13);
    EXPECT(told[0] == 0 && told[1] == 0 && out[0] == 7);
    EXPECT(bridlesnow_read_attrs_at_tags((const uint8_t *)"{:1}", 4, 0, 0, 0, out, 16, told, 2) == 0);
    EXPECT(told[0] == 4 && told[1] == 10 && memcmp(out, "{lang=\"1\"}\7", 11) == 0);
    EXPECT(bridlesnow_read_attrs_at_tags((const uint8_t *)"{:1 :x-1}", 9, 0, 255, 255, out, 16, told, 2) == 0);
    EXPECT(told[0] == 9 && told[1] == 12 && memcmp(out, "{lang=\"x-1\"}\7", 13) == 0);
    memset(join, 7, sizeof join);
    EXPECT(bridlesnow_standalone_attrs_block_len(wrapped, 6, 1, join, 4, told, 4) == 9);
    EXPECT(told[0] == 0 && told[1] == 0 && told[2] == 2 && told[3] == 2 && memcmp(join, "{a\7\7", 4) == 0);
    EXPECT(bridlesnow_standalone_attrs_block_len(wrapped, 6, 1, join, 5, told, 4) == 0);
    EXPECT(told[0] == 2 && told[1] == 6 && told[2] == 5 && told[3] == 5 && memcmp(join, "{a b}\7", 6) == 0);

    /* Behind a refusal by place: the place that was asked for, where it is one of the text, and else 0. */
    size_t by_place[5] = {9, 9, 9, 9, 9};
    EXPECT(bridlesnow_read_block_at(block, 4, SIZE_MAX, NULL, 0, NULL, 0, by_place, 5) == 3);
    EXPECT(by_place[0] == 0 && by_place[1] == 0 && by_place[2] == 0 && by_place[3] == 0 && by_place[4] == 0);
    EXPECT(bridlesnow_read_block_at(block, 4, 4, NULL, 0, NULL, 0, by_place, 5) == 3 && by_place[1] == 0);
    EXPECT(bridlesnow_read_block_at(block, 4, 3, NULL, 0, NULL, 0, by_place, 5) == 3 && by_place[1] == 3);
    static uint8_t too_long[65536];
    EXPECT(bridlesnow_read_block_at(too_long, 65536, 7, NULL, 0, NULL, 0, by_place, 5) == 1 && by_place[1] == 0);

    /* Two blocks, each with its own buffer: what is told of both, and what stands in each buffer afterwards. */
    static const uint8_t sheet[] = "{.a}\n{b\n c}\n{d\n e}\nno\n{f\n";
    uint8_t other_join[8], merged[24];
    memset(join, 7, sizeof join);
    memset(other_join, 8, sizeof other_join);
    memset(merged, 9, sizeof merged);
    EXPECT(bridlesnow_merge_blocks(sheet, 24, 1, 2, NULL, 0, other_join, 5, merged, 21, told, 4) == 0);
    EXPECT(told[0] == 0 && told[1] == 21 && told[2] == 1 && told[3] == 2);
    EXPECT(memcmp(merged, "{class=\"a\" b=\"\" c=\"\"}\11", 22) == 0 && memcmp(other_join, "{b c}\10", 6) == 0);
    EXPECT(bridlesnow_merge_blocks(sheet, 24, 2, 4, join, 8, other_join, 8, merged, 24, told, 4) == 0);
    EXPECT(told[0] == 0 && told[1] == 21 && told[2] == 2 && told[3] == 2);
    EXPECT(memcmp(merged, "{b=\"\" c=\"\" d=\"\" e=\"\"}", 21) == 0 && memcmp(join, "{b c}\7", 6) == 0 && memcmp(other_join, "{d e}\10", 6) == 0);
    memset(merged, 9, sizeof merged);
    memset(join, 7, sizeof join);
    memset(other_join, 8, sizeof other_join);
    EXPECT(bridlesnow_merge_blocks(sheet, 24, 6, 2, join, 8, other_join, 8, merged, 24, told, 4) == 3);
    EXPECT(told[0] == 1 && told[1] == 0 && told[2] == 0 && told[3] == 2 && join[0] == 7 && memcmp(other_join, "{b c}\10", 6) == 0);
    EXPECT(bridlesnow_merge_blocks(sheet, 24, 2, 7, join, 8, other_join, 8, merged, 24, told, 4) == 5);
    EXPECT(told[0] == 2 && told[1] == 0 && told[2] == 2 && told[3] == 0 && memcmp(join, "{b c}\7", 6) == 0 && memcmp(other_join, "{f", 2) == 0);
    EXPECT(bridlesnow_merge_blocks(sheet, 24, 2, 4, join, 8, other_join, 4, merged, 24, told, 4) == 9);
    EXPECT(told[0] == 2 && told[2] == 2 && told[3] == 0 && memcmp(other_join, "{d", 2) == 0);
    EXPECT(bridlesnow_merge_blocks(sheet, 24, 2, 4, join, 8, other_join, 8, merged, 20, told, 4) == 10);
    EXPECT(told[0] == 3 && told[1] == 0 && told[2] == 2 && told[3] == 2 && merged[0] == 9);

    /* A check list: the key taken out, nothing left, one that has a value, and a buffer one byte short. */
    static const uint8_t checks[] = "{loose\n .a}\n{loose}\n{loose=x}\n";
    size_t taken[7];
    memset(join, 7, sizeof join);
    memset(merged, 9, sizeof merged);
    taken[6] = 5;
    EXPECT(bridlesnow_consume_loose(checks, sizeof checks - 1, 1, join, 8, merged, 24, taken, 7) == 9);
    EXPECT(taken[0] == 0 && taken[1] == 0 && taken[2] == 0 && taken[6] == 5 && merged[0] == 9);
    EXPECT(bridlesnow_consume_loose(checks, sizeof checks - 1, 1, other_join, 8, merged, 24, taken, 7) == 9);
    uint8_t wide[16];
    EXPECT(bridlesnow_consume_loose(checks, sizeof checks - 1, 1, wide, 16, merged, 10, taken, 7) == 10);
    EXPECT(taken[0] == 1 && taken[1] == 0 && taken[2] == 2 && merged[0] == 9);
    EXPECT(bridlesnow_consume_loose(checks, sizeof checks - 1, 1, wide, 16, merged, 11, taken, 7) == 0);
    EXPECT(taken[0] == 1 && taken[1] == 11 && taken[2] == 2 && taken[3] == 12 && taken[4] == 10 && taken[5] == 10 && taken[6] == 5);
    EXPECT(memcmp(merged, "{class=\"a\"}\11", 12) == 0 && memcmp(wide, "{loose .a}", 10) == 0);
    EXPECT(bridlesnow_consume_loose(checks, sizeof checks - 1, 3, NULL, 0, merged, 24, taken, 6) == 12);
    EXPECT(taken[0] == 1 && taken[1] == 0 && taken[2] == 1 && taken[3] == 20 && merged[0] == '{');
    EXPECT(bridlesnow_consume_loose(checks, sizeof checks - 1, 4, NULL, 0, merged, 24, taken, 2) == 0);
    EXPECT(taken[0] == 0 && taken[1] == 11 && memcmp(merged, "{loose=\"x\"}", 11) == 0);

    /* Items and values one by one: exact room and one byte short, told also then; what isn't there; an empty value, which is; and untouched on each of these. */
    static const uint8_t kept_set[] = "{.a .a k='x\\'y'\n e}\n";
    uint8_t part[8];
    size_t items[8];
    memset(part, 7, sizeof part);
    items[7] = 5;
    EXPECT(bridlesnow_item_at(kept_set, sizeof kept_set - 1, 1, 1, wide, 16, part, 3, items, 8) == 9 && items[0] == 0 && items[1] == 0 && part[0] == 7);
    static uint8_t roomy[32];
    EXPECT(bridlesnow_item_at(kept_set, sizeof kept_set - 1, 1, 1, roomy, 32, part, 3, items, 8) == 10);
    EXPECT(items[0] == 3 && items[1] == 1 && items[2] == 3 && items[3] == 2 && items[4] == 20 && items[5] == 18 && items[6] == 18 && items[7] == 5 && part[0] == 7);
    EXPECT(bridlesnow_item_at(kept_set, sizeof kept_set - 1, 1, 1, roomy, 32, part, 4, items, 8) == 0 && memcmp(part, "kx'y\7", 5) == 0);
    EXPECT(bridlesnow_item_at(kept_set, sizeof kept_set - 1, 1, 0, roomy, 32, part, 8, items, 8) == 0 && items[1] == 5 && items[2] == 1);
    EXPECT(memcmp(part, "classa\7", 7) == 0);
    EXPECT(bridlesnow_item_at(kept_set, sizeof kept_set - 1, 1, 2, roomy, 32, part, 8, items, 8) == 0 && items[1] == 1 && items[2] == 0 && memcmp(part, "elassa\7", 7) == 0);
    memset(part, 7, sizeof part);
    EXPECT(bridlesnow_item_at(kept_set, sizeof kept_set - 1, 1, 3, roomy, 32, part, 8, items, 8) == 0 && items[0] == 3 && items[1] == 0 && items[2] == 0 && part[0] == 7);
    EXPECT(bridlesnow_item_at(kept_set, sizeof kept_set - 1, 1, SIZE_MAX, roomy, 32, NULL, 0, items, 1) == 0 && items[0] == 3);
    EXPECT(bridlesnow_value_at(kept_set, sizeof kept_set - 1, 1, (const uint8_t *)"k", 1, 0, roomy, 32, part, 2, items, 6) == 10 && items[0] == 1 && items[1] == 3 && part[0] == 7);
    EXPECT(bridlesnow_value_at(kept_set, sizeof kept_set - 1, 1, (const uint8_t *)"k", 1, 0, roomy, 32, part, 3, items, 6) == 0);
    EXPECT(items[0] == 1 && items[1] == 3 && items[2] == 2 && items[3] == 20 && items[5] == 18 && memcmp(part, "x'y\7", 4) == 0);
    EXPECT(bridlesnow_value_at(kept_set, sizeof kept_set - 1, 1, (const uint8_t *)"e", 1, 0, roomy, 32, NULL, 0, items, 6) == 0 && items[0] == 1 && items[1] == 0);
    EXPECT(bridlesnow_value_at(kept_set, sizeof kept_set - 1, 1, (const uint8_t *)"id", 2, 0, roomy, 32, NULL, 0, items, 6) == 0 && items[0] == 0 && items[1] == 0);
    EXPECT(bridlesnow_value_at(kept_set, sizeof kept_set - 1, 1, (const uint8_t *)"class", 5, 1, roomy, 32, NULL, 0, items, 6) == 0 && items[0] == 1 && items[1] == 0);
    EXPECT(bridlesnow_value_at(kept_set, sizeof kept_set - 1, 9, NULL, 0, 0, roomy, 32, part, 8, items, 6) == 3 && items[0] == 0 && items[2] == 0);
    memset(part, 7, sizeof part);
    EXPECT(bridlesnow_attrs_item_at((const uint8_t *)"-{#i k=v}", 9, 1, 0, 1, part, 1, items, 5) == 10 && items[0] == 2 && items[1] == 1 && items[2] == 1 && items[3] == 9);
    EXPECT(part[0] == 7 && bridlesnow_attrs_item_at((const uint8_t *)"-{#i k=v}", 9, 1, 0, 1, part, 2, items, 5) == 0 && memcmp(part, "kv\7", 3) == 0);
    EXPECT(bridlesnow_attrs_item_at((const uint8_t *)"{k=}", 4, 0, 0, 0, part, 2, items, 5) == 5 && items[0] == 0 && items[3] == 0 && items[4] == 2);
    EXPECT(bridlesnow_attrs_value_at((const uint8_t *)"{#i k=v}", 8, 0, 1, (const uint8_t *)"id", 2, 0, part, 1, items, 4) == 0);
    EXPECT(items[0] == 1 && items[1] == 1 && items[2] == 8 && items[3] == 0 && memcmp(part, "iv\7", 3) == 0);
    EXPECT(bridlesnow_attrs_value_at((const uint8_t *)"{#i k=v}", 8, 1, 1, (const uint8_t *)"id", 2, 0, part, 1, items, 4) == 3 && items[0] == 0 && part[0] == 'i');

    /* A payload's place, and its tokens. */
    EXPECT(bridlesnow_payload_at((const uint8_t *)"-{#i}", 5, 1, told, 2) && told[0] == 2 && told[1] == 4);
    EXPECT(bridlesnow_payload_at((const uint8_t *)"{}", 2, 0, told, 2) && told[0] == 1 && told[1] == 1);
    EXPECT(!bridlesnow_payload_at((const uint8_t *)"-{#i}", 5, 0, told, 2) && told[0] == 0 && told[1] == 0);
    EXPECT(!bridlesnow_payload_at((const uint8_t *)"-{#i}", 5, SIZE_MAX, told, 2) && !bridlesnow_payload_at((const uint8_t *)"{a", 2, 0, NULL, 0));
    static const uint8_t payload[] = " .c k='v' =";
    EXPECT(bridlesnow_next_token(payload, 11, 0, 0, told, 4) && told[0] == BRIDLESNOW_TOKEN_CLASS && told[1] == 2 && told[2] == 3 && told[3] == 3);
    EXPECT(bridlesnow_next_token(payload, 11, told[3], 0, told, 4) && told[0] == BRIDLESNOW_TOKEN_QUOTED && told[1] == 4 && told[2] == 5 && told[3] == 9);
    EXPECT(!bridlesnow_next_token(payload, 11, told[3], 0, told, 4) && told[0] == BRIDLESNOW_TOKEN_BAD && told[1] == 10 && told[2] == 10 && told[3] == 10);
    EXPECT(!bridlesnow_next_token(payload, 10, 9, 0, told, 4) && told[0] == BRIDLESNOW_TOKEN_END && told[1] == 10 && told[2] == 10 && told[3] == 10);
    EXPECT(!bridlesnow_next_token(payload, 11, SIZE_MAX, 255, told, 4) && told[0] == BRIDLESNOW_TOKEN_END && told[3] == SIZE_MAX);

    /* A valve table: room for all numbers, for some of them, and untouched on a refusal. */
    static const uint8_t valves[] = "{widths=\"1\\,2\" aligns=left}\n{aligns=\",,,,,,,,,,,,,,,,,,,,,,,,,,,,,,,,\"}\n";
    size_t numbers[11], which;
    for (which = 0; which < 11; which++) numbers[which] = 77;
    EXPECT(bridlesnow_table_columns(valves, sizeof valves - 1, 1, NULL, 0, numbers, 11, told, 3) == 0);
    EXPECT(told[0] == 2 && told[1] == 1 && told[2] == 0);
    EXPECT(numbers[0] == 1 && numbers[1] == 0 && numbers[2] == 2 && numbers[3] == 9 && numbers[4] == 10);
    EXPECT(numbers[5] == 0 && numbers[6] == 0 && numbers[7] == 2 && numbers[8] == 12 && numbers[9] == 13 && numbers[10] == 77);
    for (which = 0; which < 11; which++) numbers[which] = 77;
    EXPECT(bridlesnow_table_columns(valves, sizeof valves - 1, 1, NULL, 0, numbers, 3, told, 1) == 0);
    EXPECT(told[0] == 2 && numbers[2] == 2 && numbers[3] == 77);
    EXPECT(bridlesnow_table_columns(valves, sizeof valves - 1, 2, NULL, 0, numbers, 11, told, 3) == 18);
    EXPECT(told[0] == 0 && told[1] == 1 && numbers[0] == 1 && numbers[3] == 77);

    static uint8_t lines[BRIDLESNOW_MAX], report[BRIDLESNOW_LINE];
    EXPECT(bridlesnow_report_start(block, 4, lines, sizeof lines - 1, report, sizeof report, told, 3) == 9);
    EXPECT(bridlesnow_report_start(block, 4, lines, sizeof lines, report, sizeof report - 1, told, 3) == 10);
    EXPECT(told[0] == 0 && told[2] == 0 && report[0] == 0);
    EXPECT(bridlesnow_report_start(block, 4, lines, sizeof lines, report, sizeof report, told, 3) == 0);
    EXPECT(told[0] == 22 && told[2] == 0 && memcmp(report, "block\t1\t1\t{class=\"a\"}\n", 23) == 0);
    EXPECT(bridlesnow_report_part(block, 4, 4, 6, lines, sizeof lines, report, sizeof report, told, 3) == 3);
    EXPECT(bridlesnow_report_start((const uint8_t *)"\377", 1, lines, sizeof lines, report, sizeof report, told, 3) == 2);
    EXPECT(told[0] == 14 && told[2] == 0 && memcmp(report, "refused\t0\t0\t2\n", 14) == 0);

    /* The dealers' table: whole, one cell short, and untouched where it is refused. */
    static const char one[] = "{variant=30 wheel=rear-right valve=0}\n", two[] = "{variant=30 wheel=rear-right valve=0}\n{valve=1\n b}\n";
    uint16_t cells[BRIDLESNOW_CELLS + 1];
    size_t i;
    for (i = 0; i <= BRIDLESNOW_CELLS; i++)
        cells[i] = 777;
    EXPECT(bridlesnow_variants((const uint8_t *)two, sizeof two - 1, lines, sizeof lines, cells, BRIDLESNOW_CELLS, told, 3) == 20);
    EXPECT(told[0] == 2 && told[1] == 2 && told[2] == 0 && memcmp(lines, "{valve=1 b}", 12) == 0);
    EXPECT(bridlesnow_variants((const uint8_t *)one, sizeof one - 1, lines, sizeof lines - 1, cells, BRIDLESNOW_CELLS, told, 3) == 9);
    for (i = 0; i <= BRIDLESNOW_CELLS; i++)
        EXPECT(cells[i] == 777);
    EXPECT(bridlesnow_variants((const uint8_t *)one, sizeof one - 1, lines, sizeof lines, cells, BRIDLESNOW_CELLS - 1, NULL, 0) == 0);
    EXPECT(cells[0] == BRIDLESNOW_UNFILLED && cells[118] == BRIDLESNOW_UNFILLED && cells[119] == 777);
    EXPECT(bridlesnow_variants((const uint8_t *)one, sizeof one - 1, lines, sizeof lines, cells, BRIDLESNOW_CELLS + 1, told, 3) == 0);
    EXPECT(told[0] == 0 && told[1] == 0 && told[2] == 0);
    EXPECT(cells[118] == BRIDLESNOW_UNFILLED && cells[119] == 0 && cells[120] == 777);

    /* A report over sheets: fed, added up, as text, and untouched where it is refused. */
    static const char fed_sheet[] = "{.a\n k}\n{a\n";
    static const uint64_t fed[BRIDLESNOW_TOTALS] = {2, 1, 1, 0, 1, 0, 0, 0, 1, 1, 3, 8, 2};
    uint64_t totals[BRIDLESNOW_TOTALS + 1] = {0}, most[BRIDLESNOW_TOTALS];
    totals[BRIDLESNOW_TOTALS] = 777;
    EXPECT(bridlesnow_totals_feed(totals, BRIDLESNOW_TOTALS, (const uint8_t *)fed_sheet, sizeof fed_sheet - 1, lines, sizeof lines - 1) == 9);
    EXPECT(bridlesnow_totals_feed(totals, BRIDLESNOW_TOTALS - 1, (const uint8_t *)fed_sheet, sizeof fed_sheet - 1, lines, sizeof lines) == 17);
    for (i = 0; i < BRIDLESNOW_TOTALS; i++)
        EXPECT(totals[i] == 0);
    EXPECT(bridlesnow_totals_feed(totals, BRIDLESNOW_TOTALS + 1, (const uint8_t *)fed_sheet, sizeof fed_sheet - 1, lines, sizeof lines) == 0);
    EXPECT(memcmp(lines, "{aa k}", 6) == 0);
    EXPECT(bridlesnow_totals_feed(totals, BRIDLESNOW_TOTALS, (const uint8_t *)"\377", 1, NULL, 0) == 0);
    EXPECT(memcmp(totals, fed, sizeof fed) == 0 && totals[BRIDLESNOW_TOTALS] == 777);
    for (i = 0; i < BRIDLESNOW_TOTALS; i++)
        most[i] = UINT64_MAX;
    EXPECT(bridlesnow_totals_add(totals, BRIDLESNOW_TOTALS, most, BRIDLESNOW_TOTALS) == 17);
    EXPECT(bridlesnow_totals_add(totals, BRIDLESNOW_TOTALS, most, BRIDLESNOW_TOTALS - 1) == 17);
    EXPECT(memcmp(totals, fed, sizeof fed) == 0);
    for (i = 0; i < BRIDLESNOW_LONGEST; i++)
        most[i] -= fed[i];
    EXPECT(bridlesnow_totals_add(totals, BRIDLESNOW_TOTALS, most, BRIDLESNOW_TOTALS) == 0);
    for (i = 0; i < BRIDLESNOW_TOTALS; i++)
        EXPECT(totals[i] == UINT64_MAX);
    EXPECT(bridlesnow_totals_text(totals, BRIDLESNOW_TOTALS, report, BRIDLESNOW_TOTALS_TEXT - 1, told, 1) == 10 && told[0] == 0);
    EXPECT(bridlesnow_totals_text(totals, BRIDLESNOW_TOTALS, report, BRIDLESNOW_TOTALS_TEXT, told, 1) == 0 && told[0] == BRIDLESNOW_TOTALS_TEXT);
    EXPECT(memcmp(report, "sheets\t18446744073709551615\nblocks\t", 35) == 0);
    EXPECT(bridlesnow_totals_text(fed, BRIDLESNOW_TOTALS, report, sizeof report, told, 1) == 0);
    EXPECT(memcmp(report + told[0] - 22, "lookahead\t8\nlongest\t2\n", 22) == 0);

    /* An index: exact room, one row and one byte short, untouched where it is refused; read, and looked up in. */
    static const char listed[] = "t\r\n{id}\n{#v17\n side=right}\n{.a}\n", kept[] = "carve-attr-index\t2\n2\t1\t3\t\n3\t2\t8\tv17\n5\t1\t27\n";
    static const size_t rows[15] = {2, 1, 3, 25, 25, 3, 2, 8, 32, 35, 5, 1, 27, 0, 0};
    size_t table[16], again[16];
    for (i = 0; i < 16; i++)
        table[i] = again[i] = 777;
    memset(report, 9, 64);
    EXPECT(bridlesnow_index_build((const uint8_t *)listed, sizeof listed - 1, lines, sizeof lines - 1, table, 15, report, 64, told, 2) == 9);
    EXPECT(bridlesnow_index_build((const uint8_t *)listed, sizeof listed - 1, lines, sizeof lines, table, 14, report, 0, told, 2) == 15);
    EXPECT(bridlesnow_index_build((const uint8_t *)listed, sizeof listed - 1, lines, sizeof lines, table, 15, report, sizeof kept - 2, told, 2) == 19);
    EXPECT(told[0] == 0 && told[1] == 0 && table[0] == 777 && report[0] == 9 && memcmp(lines, "{#v17 side=right}", 17) == 0);
    EXPECT(bridlesnow_index_build((const uint8_t *)listed, sizeof listed - 1, lines, sizeof lines, table, 16, report, sizeof kept - 1, told, 2) == 0);
    EXPECT(told[0] == 3 && told[1] == sizeof kept - 1 && memcmp(report, kept, sizeof kept - 1) == 0 && report[sizeof kept - 1] == 9);
    EXPECT(memcmp(table, rows, sizeof rows) == 0 && table[15] == 777);
    EXPECT(bridlesnow_index_read(report, told[1], again, 14, told, 1) == 15 && told[0] == 0 && again[0] == 777);
    EXPECT(bridlesnow_index_read(report, sizeof kept - 2, again, 15, told, 1) == 14 && told[0] == 0 && again[0] == 777);
    EXPECT(bridlesnow_index_read(report, sizeof kept - 1, again, 15, told, 1) == 0 && told[0] == 3 && memcmp(again, rows, sizeof rows) == 0);
    EXPECT(bridlesnow_index_find(report, sizeof kept - 1, (const uint8_t *)"v17", 3, told, 4) == 0);
    EXPECT(told[0] == 1 && told[1] == 3 && told[2] == 2 && told[3] == 8);
    EXPECT(bridlesnow_index_find(report, sizeof kept - 1, NULL, 0, told, 4) == 0 && told[0] == 1 && told[1] == 2 && told[2] == 1 && told[3] == 3);
    EXPECT(bridlesnow_index_find(report, sizeof kept - 1, (const uint8_t *)"v1", 2, told, 4) == 0 && told[0] == 0 && told[1] == 0 && told[3] == 0);
    EXPECT(bridlesnow_index_find(report, sizeof kept - 2, NULL, 0, told, 4) == 14 && told[0] == 0);
    EXPECT(bridlesnow_index_find_row(report, sizeof kept - 1, table, 15, 3, (const uint8_t *)"v17", 3, told, 4) == 0 && told[0] == 1 && told[3] == 8);
    EXPECT(bridlesnow_index_find_row(report, sizeof kept - 1, table, 15, 1, (const uint8_t *)"v17", 3, told, 4) == 0 && told[0] == 0);
    EXPECT(bridlesnow_index_find_row(report, sizeof kept - 1, table, 16, SIZE_MAX, (const uint8_t *)"v17", 3, told, 4) == 0 && told[0] == 1);
    EXPECT(bridlesnow_index_find_row(report, 30, table, 15, 3, (const uint8_t *)"v17", 3, told, 4) == 0 && told[0] == 0);

    /* The same index mended after line 2 was replaced: 3 and 14 before 15 and 19, and untouched on all of these. */
    static const char edited[] = "t\r\n{#x}\nu\n{#v17\n side=right}\n{.a}\n", mended[] = "carve-attr-index\t2\n2\t1\t3\tx\n4\t2\t10\tv17\n6\t1\t29\n";
    static const size_t moved[15] = {2, 1, 3, 25, 26, 4, 2, 10, 34, 37, 6, 1, 29, 0, 0};
    static uint8_t fresh[64];
    for (i = 0; i < 16; i++)
        again[i] = 777;
    memset(fresh, 9, 64);
#define MEND(a, b, index_len, numbers, size)                                                                                            \
    bridlesnow_index_mend((const uint8_t *)listed, sizeof listed - 1, (const uint8_t *)edited, sizeof edited - 1, a, b, report, index_len, \
                          lines, sizeof lines, again, numbers, fresh, size, told, 2)
    EXPECT(MEND(0, 1, 0, 0, 0) == 3 && MEND(2, 1, 0, 0, 0) == 3 && MEND(2, SIZE_MAX, 0, 0, 0) == 3 && MEND(3, 3, 0, 0, 0) == 3);
    EXPECT(MEND(2, 2, sizeof kept - 2, 0, 0) == 14 && MEND(2, 2, sizeof kept - 1, 14, 0) == 15 && MEND(2, 2, sizeof kept - 1, 15, sizeof mended - 2) == 19);
    EXPECT(told[0] == 0 && told[1] == 0 && again[0] == 777 && fresh[0] == 9);
    EXPECT(MEND(2, 2, sizeof kept - 1, 16, sizeof mended - 1) == 0 && told[0] == 3 && told[1] == sizeof mended - 1);
    EXPECT(memcmp(fresh, mended, sizeof mended - 1) == 0 && fresh[sizeof mended - 1] == 9 && memcmp(again, moved, sizeof moved) == 0 && again[15] == 777);

    /* Room for fewer numbers than there are: the rest is untouched. */
    told[1] = 99;
    EXPECT(bridlesnow_standalone_attrs_block_len(wrapped, 6, 1, join, 5, told, 1) == 0 && told[0] == 2 && told[1] == 99);
    if (!failed)
        printf("arguments: all answered\n");
    return failed;
}
