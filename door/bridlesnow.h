/* Bridlesnow: a proved reader of Carve attribute blocks, for C.
 *
 * Link `target/door/libdoor.a`, which `door/library` writes. The functions allocate nothing, keep nothing between calls, and may be called from
 * several threads at once.
 *
 * Every call but those that return a bool returns a number: 0 where nothing is refused, else one of
 *
 *     1  the text has more than 65,535 bytes        7  more than 64 distinct keys
 *     2  it isn't UTF-8                             9  the next line to join doesn't fit `join`
 *     3  nothing is there to read                  10  the canonical text has more than 65,535 bytes, or a text more than `out`
 *     4  no close                                  11  (never given here: a set that isn't well-formed)
 *     5  no reading                                12  nothing is left of a set (bridlesnow_consume_loose alone)
 *     6  more than 64 classes                      13  the language tag isn't well-formed (bridlesnow_read_attrs_at_tags and _once)
 *    14  not an index, or not the old text's       17  a total over all sheets would not fit 64 bits, or has no room
 *    15  the records have no room in `table`       18  more than 32 columns
 *    16  an index of another version               20  one or two of `variant`, `wheel` and `valve`, or a value out of range
 *    19  the index has no room in `out`            21  a variant has one valve at two wheels
 *
 * A set is handed out as its canonical text at the front of `out`, such as {id="v17" class="wheel" side="left"}. A class that is listed again is
 * written once, at its first place. After a number other than 0 `out`, `cells`, `totals`, `numbers` and `table` are untouched, but for bridlesnow_report_start,
 * whose 1 and 2 lay a line. Numbers besides are told in `told`, in the order that the function's comment gives: as many as `told_len` has room for, the rest of it
 * untouched. So a caller who wants none passes NULL and 0. They are told on a refusal too; the length of the canonical text is 0 where none is
 * written, so 10 doesn't tell how much is needed.
 *
 * A text is its bytes and its length. No NUL ends it; one within it is a byte like others.
 *
 * What the caller owes: each pointer with a length other than 0 points to that many elements, and memory that a call writes (`join`, `other_join`,
 * `out`, `cells`, `totals`, `numbers`, `table`, `told`) overlaps no other memory of that call. A pointer with length 0 may be NULL. Any other argument gets an answer: a place or
 * a line that isn't there is 3 (for a refused run: no), a `join` or an `out` too short is 9 or 10.
 *
 * More than two blocks, such as common, family and variant, are composed by writing their canonical texts one behind the other, with nothing between,
 * and reading that by bridlesnow_parse_standalone_attrs as line 1: it is one line, whatever was wrapped, and means the merge of all of them from left to
 * right. It is proved that the grouping doesn't matter, and that nothing is refused on the way where all of them together have no more classes and
 * distinct keys than a set may have and no more than BRIDLESNOW_MAX bytes. A class that several of them list counts as often as it is written.
 * door/compose.c does so.
 *
 * Lines end at LF, a CR before it is dropped, and are counted from 1. `join` is where the lines of a wrapped block are joined; 65,535 bytes are
 * enough for any text.
 */
#ifndef BRIDLESNOW_H
#define BRIDLESNOW_H

#include <stdbool.h>
#include <stddef.h>
#include <stdint.h>

#ifdef __cplusplus
extern "C" {
#endif

/* The version of this header and of the library that is made with it. */
#define BRIDLESNOW_VERSION "0.9.0"
#define BRIDLESNOW_VERSION_MAJOR 0
#define BRIDLESNOW_VERSION_MINOR 9
#define BRIDLESNOW_VERSION_PATCH 0

/* The numbers by name. */
enum {
    BRIDLESNOW_OK = 0,
    BRIDLESNOW_TEXT_TOO_LONG = 1,
    BRIDLESNOW_NOT_UTF8 = 2,
    BRIDLESNOW_NOTHING_THERE = 3,
    BRIDLESNOW_NO_CLOSE = 4,
    BRIDLESNOW_NO_READING = 5,
    BRIDLESNOW_TOO_MANY_CLASSES = 6,
    BRIDLESNOW_TOO_MANY_KEYS = 7,
    BRIDLESNOW_JOIN_FULL = 9,
    BRIDLESNOW_CANON_TOO_LONG = 10,
    BRIDLESNOW_NOT_WELL_FORMED = 11,
    BRIDLESNOW_EMPTY_SET = 12,
    BRIDLESNOW_BAD_TAG = 13,
    BRIDLESNOW_NOT_AN_INDEX = 14,
    BRIDLESNOW_TABLE_FULL = 15,
    BRIDLESNOW_ANOTHER_VERSION = 16,
    BRIDLESNOW_TOTAL_TOO_LARGE = 17,
    BRIDLESNOW_TOO_MANY_COLUMNS = 18,
    BRIDLESNOW_INDEX_TOO_LONG = 19,
    BRIDLESNOW_BAD_SETTING = 20,
    BRIDLESNOW_SHARED_VALVE = 21
};

/* The longest text, and the longest canonical text. */
#define BRIDLESNOW_MAX 65535

/* No line of a report is longer. */
#define BRIDLESNOW_LINE 65600

/* The dealers' table: its variants, its wheels, the cells of both, and what an unfilled cell holds. */
#define BRIDLESNOW_VARIANTS 30
#define BRIDLESNOW_WHEELS 4
#define BRIDLESNOW_CELLS 120
#define BRIDLESNOW_UNFILLED 256

/* A report over sheets: its totals, their places in document 02's order, and the longest text of it. */
#define BRIDLESNOW_TOTALS 13
#define BRIDLESNOW_TOTALS_TEXT 384
enum {
    BRIDLESNOW_SHEETS,
    BRIDLESNOW_BLOCKS,
    BRIDLESNOW_WRAPPED,
    BRIDLESNOW_REFUSED_1,
    BRIDLESNOW_REFUSED_2,
    BRIDLESNOW_REFUSED_6,
    BRIDLESNOW_REFUSED_7,
    BRIDLESNOW_REFUSED_10,
    BRIDLESNOW_CLASSES,
    BRIDLESNOW_KEYS,
    BRIDLESNOW_JOINED,
    BRIDLESNOW_LOOKAHEAD,
    BRIDLESNOW_LONGEST
};

/* The most columns that a valve table's block may say, and how many numbers are laid for each. */
#define BRIDLESNOW_COLUMNS 32
#define BRIDLESNOW_COLUMN 5

/* An index beside a sheet: the most records of a sheet, how many numbers of a table each of them takes, and the longest text of an index. */
#define BRIDLESNOW_RECORDS 16384
#define BRIDLESNOW_RECORD 5
#define BRIDLESNOW_INDEX 376850

/* Whether the bytes are UTF-8. */
bool bridlesnow_is_utf8(const uint8_t *text, size_t text_len);

/* 1, 2, or 0 for a text that every function by line takes. */
uint8_t bridlesnow_check_text(const uint8_t *text, size_t text_len);

/* Whether the bytes are the payload of an inline block, or of a block on lines of its own; whether a wrapped block can go on with the line. */
bool bridlesnow_parse_attrs(const uint8_t *payload, size_t payload_len);
bool bridlesnow_is_valid_attr_payload(const uint8_t *payload, size_t payload_len);
bool bridlesnow_valid_wrapped_attr_continuation(const uint8_t *line, size_t line_len);

/* Reads the block whose brace stands at byte `place`. `loose` is 0 for an inline block, where only spaces part attributes; else a CR does so too. An LF before
 * the close is 4 in either.
 * Order of refusals: 1, 3, 4, 2 (of the payload), 5, 6, 7, then 2 (of the whole text) and 10.
 * Tells: the place behind the block, 0 where it isn't read; the length of the canonical text; for 5 where the payload went wrong, else 0: how many bytes of it,
 * counted from behind the brace and up to the end of a character, can still be continued to a payload that has a reading. {a=} tells 2, {} 0. */
uint8_t bridlesnow_read_attrs_at(const uint8_t *text, size_t text_len, size_t place, uint8_t loose,
                                 uint8_t *out, size_t out_len, size_t *told, size_t told_len);

/* The same; where `strict_tags` isn't 0, the value of `lang` that counts, which is the last one, unescaped, has to be empty or well-formed by RFC 5646
 * section 2.1, letter case ignored. With 0 it is bridlesnow_read_attrs_at.
 * Order: 1, 3, 4, 2 (of the payload), 5, 13, 6, 7, then 2 (of the whole text) and 10. Tells as above. */
uint8_t bridlesnow_read_attrs_at_tags(const uint8_t *text, size_t text_len, size_t place, uint8_t loose, uint8_t strict_tags,
                                      uint8_t *out, size_t out_len, size_t *told, size_t told_len);

/* A second reader, in one walk over the bytes. It answers just what bridlesnow_read_attrs_at_tags does for every text, place, mode and choice of tags, the
 * numbers, places and canonical text, which is proved. The desktop tool takes this one; the display keeps the first. */
uint8_t bridlesnow_read_attrs_once(const uint8_t *text, size_t text_len, size_t place, uint8_t loose, uint8_t strict_tags,
                                   uint8_t *out, size_t out_len, size_t *told, size_t told_len);

/* Reads one line of blocks that stand back to back. Order: 1, 2, 3, 5, 6, 7, 10.
 * Tells: the length of the canonical text. */
uint8_t bridlesnow_parse_standalone_attrs(const uint8_t *text, size_t text_len, size_t line,
                                          uint8_t *out, size_t out_len, size_t *told, size_t told_len);

/* Merges the sets of two lines of blocks: what the variant's line says wins over the common line. Order: the numbers of the common line, those of the
 * variant's line, 6 and 7 of the merge, 10.
 * Tells: which step refuses (1 the common line, 2 the variant's, 3 the merge, 0 none of these, as with 10); the length of the canonical text. */
uint8_t bridlesnow_merge_lines(const uint8_t *text, size_t text_len, size_t common, size_t variant,
                               uint8_t *out, size_t out_len, size_t *told, size_t told_len);

/* Reads the block of one or more lines that begins at a line. Order: 1, 2, 3, then 9 or 5 as its lines are met, 6, 7, 10.
 * Tells: its lines, also where 6, 7 or 10 refuses its set, else 0; the place behind it, or that of the line (0 where there is no such line, or the
 * text gives 1 or 2); the lookahead; how many bytes were joined; the length of the canonical text. */
uint8_t bridlesnow_parse_standalone_attrs_block(const uint8_t *text, size_t text_len, size_t line,
                                                uint8_t *join, size_t join_len,
                                                uint8_t *out, size_t out_len, size_t *told, size_t told_len);

/* The same for a wrapped run, also of one line; `base` is added to the column of the first line's brace. Tells as above. */
uint8_t bridlesnow_wrapped_attrs_run_at(const uint8_t *text, size_t text_len, size_t line, size_t base,
                                        uint8_t *join, size_t join_len,
                                        uint8_t *out, size_t out_len, size_t *told, size_t told_len);

/* Reads the block of one or more lines whose first line begins at byte `at`, as bridlesnow_parse_standalone_attrs_block does by the line's number: for
 * going through a text that bridlesnow_check_text took once. No byte outside its lines counts, so only 1 and no 2 is given. A place within a line is
 * taken as the beginning of one; over bytes that aren't UTF-8 `out` isn't UTF-8 either. Tells as above: behind a refusal but 6, 7 and 10 the place is
 * `at` itself, or 0 where `at` is at or past the text's end or 1 is given. */
uint8_t bridlesnow_read_block_at(const uint8_t *text, size_t text_len, size_t at,
                                 uint8_t *join, size_t join_len,
                                 uint8_t *out, size_t out_len, size_t *told, size_t told_len);

/* Merges the blocks of one or more lines that begin at two lines: what the variant's block says wins over the common one. The lines of the common
 * block are joined in `join`, those of the variant's in `other_join`; a block on one line needs none. Order: the numbers of the common block, those of
 * the variant's, 6 and 7 of the merge, 10. The variant's block is read also where the common one is refused.
 * Tells: which step refuses (1 the common block, 2 the variant's, 3 the merge or 10, 0 none); the length of the canonical text; the lines of the
 * common block and those of the variant's, each as bridlesnow_parse_standalone_attrs_block tells them. */
uint8_t bridlesnow_merge_blocks(const uint8_t *text, size_t text_len, size_t common, size_t variant,
                                uint8_t *join, size_t join_len, uint8_t *other_join, size_t other_join_len,
                                uint8_t *out, size_t out_len, size_t *told, size_t told_len);

/* Reads the block of one or more lines that begins at a line, as bridlesnow_parse_standalone_attrs_block does, and takes its key `loose` out where that
 * has no value, as in {loose .tools}: for check lists, which must say so once. `out` gets the canonical text of what is left.
 * Order: the numbers of the block, then 12 where nothing is left, as of {loose}, and 10. 12 is no fault of the block: where it is given, 1 is told first,
 * and no byte is written. 10 may come with a 1 too.
 * Tells: 1 where the key was taken out, else 0; the length of the canonical text; the block's lines, the place behind it, the lookahead, and how many
 * bytes were joined, each as bridlesnow_parse_standalone_attrs_block tells them. */
uint8_t bridlesnow_consume_loose(const uint8_t *text, size_t text_len, size_t line, uint8_t *join, size_t join_len,
                                 uint8_t *out, size_t out_len, size_t *told, size_t told_len);

/* The items of a block one by one, in the order of its canonical text: the id, each class once, each key. Each has a name (`id`, `class`, or the key's) and a
 * value, and both are handed out as the bytes that they stand for: no quotes, no backslash of the canonical text, nothing to be unescaped. An empty value is
 * there; what isn't there is told by the count.
 *
 * bridlesnow_item_at reads the block of one or more lines that begins at a line, as bridlesnow_parse_standalone_attrs_block does, and lays its item `n`, counted
 * from 0, at the front of `out`: the name, and the value right behind it.
 * Order: the numbers of the block up to 7, then 10 where `out` is too short for both. That the canonical text of the whole block would have more than
 * BRIDLESNOW_MAX bytes refuses nothing here.
 * Tells: how many items there are, so that item `n` is there where `n` is less; the lengths of its name and of its value, 0 and 0 where it isn't there, and told
 * with 10 too; the block's lines, the place behind it, the lookahead, and how many bytes were joined, each as bridlesnow_parse_standalone_attrs_block tells them.
 * A block that is refused has no items.
 *
 * bridlesnow_value_at lays value `n` of those that the block has under a name, and no name before it: under `id` or a key there is one (`n` 0) or none, under
 * `class` one for each class, each class once. Tells: how many values there are under the name; the length of the value; then as bridlesnow_item_at. */
uint8_t bridlesnow_item_at(const uint8_t *text, size_t text_len, size_t line, size_t n, uint8_t *join, size_t join_len,
                           uint8_t *out, size_t out_len, size_t *told, size_t told_len);
uint8_t bridlesnow_value_at(const uint8_t *text, size_t text_len, size_t line, const uint8_t *name, size_t name_len, size_t n,
                            uint8_t *join, size_t join_len, uint8_t *out, size_t out_len, size_t *told, size_t told_len);

/* The same of the block whose brace stands at byte `place`, as bridlesnow_read_attrs_at reads it, but that no 2 of the whole text is given.
 * Tells: how many there are; the lengths (of the item's name and of its value; of the value alone); the place behind the block, 0 where it isn't read; with 5 where
 * the payload went wrong, else 0. */
uint8_t bridlesnow_attrs_item_at(const uint8_t *text, size_t text_len, size_t place, uint8_t loose, size_t n,
                                 uint8_t *out, size_t out_len, size_t *told, size_t told_len);
uint8_t bridlesnow_attrs_value_at(const uint8_t *text, size_t text_len, size_t place, uint8_t loose,
                                  const uint8_t *name, size_t name_len, size_t n,
                                  uint8_t *out, size_t out_len, size_t *told, size_t told_len);

/* Whether the payload of a block stands behind the brace at byte `place`: the bytes up to its close, which are UTF-8, whether they have a reading or not.
 * Tells: from where to where it stands, 0 and 0 where there is none. */
bool bridlesnow_payload_at(const uint8_t *text, size_t text_len, size_t place, size_t *told, size_t told_len);

/* What bridlesnow_next_token tells first. */
enum {
    BRIDLESNOW_TOKEN_BAD,
    BRIDLESNOW_TOKEN_TAG,
    BRIDLESNOW_TOKEN_ID,
    BRIDLESNOW_TOKEN_CLASS,
    BRIDLESNOW_TOKEN_PLAIN,
    BRIDLESNOW_TOKEN_QUOTED,
    BRIDLESNOW_TOKEN_BARE,
    BRIDLESNOW_TOKEN_END
};

/* Whether a token of a payload stands at byte `at`, blanks before it passed over; `loose` as for bridlesnow_read_attrs_at, but that here an LF is a blank
 * too. To walk over a payload, pass its bytes alone, 0 at first, and then the place that was told last.
 * Tells: what stands there; from where to where its name stands, which is what follows `:`, `#` or `.`, the key before a `=`, or the bare name; the place behind the
 * token. A value without quotes stands from one byte behind the key's end up to that place, one in quotes from two bytes behind it up to one before that place.
 * Where no token stands: BRIDLESNOW_TOKEN_END or BRIDLESNOW_TOKEN_BAD, twice the place of the end or the one at which the bytes stop being a token, and the place
 * behind the blanks. */
bool bridlesnow_next_token(const uint8_t *text, size_t text_len, size_t at, uint8_t loose, size_t *told, size_t told_len);

/* Reads the block of one or more lines that begins at a line, and the column settings that it says: its keys `aligns`, `valigns` and `widths`, lists
 * split at commas. For each column `numbers` gets BRIDLESNOW_COLUMN numbers, as many as there is room for: the align (0 none, 1 left, 2 right,
 * 3 center); the vertical align (0 none, 1 top, 2 middle, 3 bottom); what the width is (0 none, 1 that of a bare `widths`, without bytes, 2 bytes of the
 * text, 3 bytes of what was joined in `join`); and from where to where these bytes stand there, as they are written, backslashes too. A block without
 * these keys has no column; a key without a value is one empty column.
 * Order: the numbers of the block, then 18.
 * Tells: how many columns there are, the block's lines, and how many bytes were joined. */
uint8_t bridlesnow_table_columns(const uint8_t *text, size_t text_len, size_t line, uint8_t *join, size_t join_len,
                                 size_t *numbers, size_t numbers_len, size_t *told, size_t told_len);

/* Measures the block at a line: one that isn't indented; a wrapped one, whatever its indentation; one whose line stands in a column.
 * Order: 1, 2, 3, then 9 or 5 as its lines are met.
 * Tells: its lines, 0 where there is none; the place behind it, or that of the line (0 where there is no such line, or the text gives 1 or 2); the
 * lookahead; how many bytes were joined. */
uint8_t bridlesnow_standalone_attrs_block_len(const uint8_t *text, size_t text_len, size_t line,
                                              uint8_t *join, size_t join_len, size_t *told, size_t told_len);
uint8_t bridlesnow_indented_wrapped_attrs_block_len(const uint8_t *text, size_t text_len, size_t line,
                                                    uint8_t *join, size_t join_len, size_t *told, size_t told_len);
uint8_t bridlesnow_attrs_block_len_at(const uint8_t *text, size_t text_len, size_t line, size_t column,
                                      uint8_t *join, size_t join_len, size_t *told, size_t told_len);

/* Whether the brace run at a line is refused only for a line too far left. Order: 1, 2, 9; a missing line is no.
 * Tells: 1 for yes, else 0; the lines that it takes, or over which a comment was looked at (SIZE_MAX where they reach to the end), else 0; the
 * lookahead; how many bytes were joined. */
uint8_t bridlesnow_refused_brace_run(const uint8_t *text, size_t text_len, size_t line,
                                     uint8_t *join, size_t join_len, size_t *told, size_t told_len);

/* Whether the text ends in such a run. Order: 1, 2, 9. Tells: 1 for yes, else 0; the lookahead of the runs made. */
uint8_t bridlesnow_ends_in_refused_brace_run(const uint8_t *text, size_t text_len,
                                             uint8_t *join, size_t join_len, size_t *told, size_t told_len);

/* Lays the report on a sheet at the front of `out`, from its first line on: a line for each block, `block`, first line, line count and canonical text
 * parted by tabs, or `refused`, first line, line count and number. As many lines are laid as surely have room; where some are left, the next call is
 * bridlesnow_report_part with the place and the line that were told. The text is checked by the first call alone and must stay as it is.
 * `join` has at least BRIDLESNOW_MAX bytes, else 9; `out` at least BRIDLESNOW_LINE, else 10. A text that gives 1 or 2 has a report of one line,
 * refused, 0, 0 and the number. report_start returns that number and lays the line all the same; where `out` has fewer than BRIDLESNOW_LINE bytes,
 * nothing is laid. So a caller first writes what is laid, goes on while the line told isn't 0, and then looks at the number.
 * Order: 1, 2, 9, 10; of report_part 1, 9, 3 (no line can begin there), 10.
 * Tells: how many bytes are laid; the place and the line at which it goes on, the line 0 where the report is whole or refused. */
uint8_t bridlesnow_report_start(const uint8_t *text, size_t text_len, uint8_t *join, size_t join_len,
                                uint8_t *out, size_t out_len, size_t *told, size_t told_len);
uint8_t bridlesnow_report_part(const uint8_t *text, size_t text_len, size_t at, size_t line, uint8_t *join, size_t join_len,
                               uint8_t *out, size_t out_len, size_t *told, size_t told_len);

/* Lays the dealers' table of a sheet at the front of `cells`, variant by variant from 1 on, in each front-left, front-right, rear-left, rear-right: a
 * valve from 0 to 255, or BRIDLESNOW_UNFILLED. As many cells are laid as `cells_len` has room for, the rest of it untouched; the sheet is read to its
 * end all the same. `join` has at least BRIDLESNOW_MAX bytes, else 9.
 * Order: 1, 2, 9, then of one block after the other 6, 7, 20; last 21.
 * Tells: the first line and the line count of the block that is refused, 0 and 0 where no block is, as with 1, 2, 9 and 21; with 21 the first variant
 * that has one valve at two wheels, else 0. */
uint8_t bridlesnow_variants(const uint8_t *text, size_t text_len, uint8_t *join, size_t join_len,
                            uint16_t *cells, size_t cells_len, size_t *told, size_t told_len);

/* A report over sheets is BRIDLESNOW_TOTALS numbers in `totals`, all 0 before the first sheet. They are changed only where 0 is returned; memory for
 * fewer is 17, and of memory for more the rest is untouched.
 * bridlesnow_totals_feed counts one sheet more. A sheet that gives 1 or 2 is counted too, so these numbers aren't returned. `join` has at least
 * BRIDLESNOW_MAX bytes, else 9, unless the sheet gives 1 or 2. Order: 9, 17. After 17 `join` holds what was joined, after 9 it is untouched.
 * bridlesnow_totals_add adds the report `more`, the longest by the larger: 17.
 * bridlesnow_totals_text lays the report's text at the front of `out`: a line for each total, name, tab and number. BRIDLESNOW_TOTALS_TEXT bytes
 * are enough. Order: 17, 10. Tells: how many bytes are laid. */
uint8_t bridlesnow_totals_feed(uint64_t *totals, size_t totals_len, const uint8_t *text, size_t text_len,
                               uint8_t *join, size_t join_len);
uint8_t bridlesnow_totals_add(uint64_t *totals, size_t totals_len, const uint64_t *more, size_t more_len);
uint8_t bridlesnow_totals_text(const uint64_t *totals, size_t totals_len, uint8_t *out, size_t out_len,
                               size_t *told, size_t told_len);

/* An index beside a sheet is a text of lines: the first is `carve-attr-index`, a tab and 2; the others are the records of the blocks that a report
 * prints: first line, line count and the place of the first line's first byte, and the unescaped id where the block has one, parted by tabs.
 * bridlesnow_index_build lays the index of a sheet at the front of `out`, and its rows at the front of `table`, BRIDLESNOW_RECORD numbers each: the
 * three of the record, and from where to where its id stands in the index text, 0 and 0 where it has none. BRIDLESNOW_RECORDS rows and
 * BRIDLESNOW_INDEX bytes are enough for any sheet. `join` has at least BRIDLESNOW_MAX bytes, else 9.
 * Order: 1, 2, 9, 15, 19. Tells: how many records there are; how many bytes are laid.
 * bridlesnow_index_read lays the rows of an index. The whole text is read before the table counts. Order: 16, 14, 15. Tells: how many records there are.
 * bridlesnow_index_find looks up the first record of an id in an index, which is read whole: 16, or 14, also for a fault behind that record.
 * bridlesnow_index_find_row does so over rows that were laid, `n` of them or as many as `table_len` has, and reads no more of the index than their ids:
 * this is the one for a key press. It refuses nothing; what a row says past the index is left out.
 * Both tell: 1 where there is such a record, else 0; its first line, its line count, and its place, at which bridlesnow_read_block_at reads the block.
 * An id is bytes, and an empty one is another thing than none.
 * bridlesnow_index_mend lays the index of `new_text`, and its rows, from the index of `old_text`, after lines `a` to `b` of that were replaced: what it lays
 * is what bridlesnow_index_build lays of the new text. It reads the old text once, to see that `index` is its index, and of the new text only the lines
 * around the edit. 3: `a` or `b` is no line of the old text, `b` is before `a`, or the new text isn't the old one with something else, or nothing, in
 * place of lines a to b, the LF of line b among them. 14: any other bytes than the old text's index. Only the new records must fit `table`.
 * Order: 1 and 2 of the old text, 1 and 2 of the new one, 9, 3, 16, 14, 15, 19. Tells as bridlesnow_index_build. */
uint8_t bridlesnow_index_build(const uint8_t *text, size_t text_len, uint8_t *join, size_t join_len,
                               size_t *table, size_t table_len, uint8_t *out, size_t out_len, size_t *told, size_t told_len);
uint8_t bridlesnow_index_read(const uint8_t *index, size_t index_len, size_t *table, size_t table_len,
                              size_t *told, size_t told_len);
uint8_t bridlesnow_index_find(const uint8_t *index, size_t index_len, const uint8_t *id, size_t id_len,
                              size_t *told, size_t told_len);
uint8_t bridlesnow_index_find_row(const uint8_t *index, size_t index_len, const size_t *table, size_t table_len, size_t n,
                                  const uint8_t *id, size_t id_len, size_t *told, size_t told_len);
uint8_t bridlesnow_index_mend(const uint8_t *old_text, size_t old_len, const uint8_t *new_text, size_t new_len, size_t a, size_t b,
                              const uint8_t *index, size_t index_len, uint8_t *join, size_t join_len,
                              size_t *table, size_t table_len, uint8_t *out, size_t out_len, size_t *told, size_t told_len);

#ifdef __cplusplus
}
#endif

#endif
