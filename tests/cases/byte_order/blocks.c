/* Definite length blocks: every header, blocks cut short, bytes before and behind one, line feeds, what is no digit, the limit, and patterns
 * written as blocks and read again. A long block is made of `a`s; the digest tells its bytes apart. */
#include "groups.h"
#include "print.h"
#include "show.h"

#include <stdlib.h>
#include <string.h>

/* The longest block that is read here: a header of nine digits, 16,385 bytes, and two bytes behind them. */
#define SPACE 16398

/* Reads each of the blocks, which `|` parts. */
static void each(const char *heading, bytes blocks) {
    print_heading(heading);
    size_t from = 0;
    for (size_t k = 0; k < blocks.n; k++) {
        if (blocks.at[k] != '|') continue;
        show_read_block(part(blocks, from, k));
        from = k + 1;
    }
    show_read_block(part(blocks, from, blocks.n));
}

static void headers(void) {
    each("blocks: one to nine digits give the count",
         BYTES("#13abc|#203abc|#3003abc|#40003abc|#500003abc|#6000003abc|#70000003abc|#800000003abc|#9000000003abc|#212abcdefghijkl"));
    each("blocks: no header, the indefinite form, what is next to the digits",
         BYTES("|#|13abc|#0|#0\n|#0abc\n|#a|#a3abc|#/|#/3abc|#:|#:0000000003abc|#\xB1" "3abc|\xA3" "13abc"));
    each("blocks: what is no digit in the count",
         BYTES("#1+a|#1-a|#1aa|#1/a|#1:abcdefghij|#1\xB1" "a|#2 1a|#2-1a|#2+1a|#21 a|#2\n1a|#31,0abcdefghij"));
}

static void lengths(void) {
    each("blocks: cut short",
         BYTES("#1|#2|#21|#9|#900000000|#13|#13ab|#210abc|#516384abc|#516385abc|#9000016385abc|#9999999999abc"));
    each("blocks: bytes before and behind",
         BYTES(" #13abc|\n#13abc|##13abc|#13abc\n|#13abc\n\n|#13abc\r|#13abc\r\n|#13abc\nd|#13abcd|#13abc\x00|#13abc#13abc"));
    each("blocks: no bytes, and a line feed among the bytes",
         BYTES("#10|#10\n|#10\n\n|#10a|#9000000000|#9000000000\n|#11\n|#11\n\n|#11\n\n\n|#13ab\n|#15\x00\xFF\r\n#"));
}

/* The header, `a`s up to a place, and what ends the block. */
static void one(bytes header, size_t place, bytes end) {
    static uint8_t space[SPACE];
    if (place < header.n || place + end.n > SPACE) abort();
    memset(space, 'a', SPACE);
    memcpy(space, header.at, header.n);
    memcpy(space + place, end.at, end.n);
    show_read_block((bytes){ space, place + end.n });
}

/* A block whose bytes should end at this place: one byte short, exact, four times with bytes behind them, and with a line feed as the last byte. */
static void ends(bytes header, size_t place) {
    one(header, place - 1, BYTES(""));
    one(header, place, BYTES(""));
    one(header, place, BYTES("\n"));
    one(header, place, BYTES("b"));
    one(header, place, BYTES("\nb"));
    one(header, place, BYTES("\n\n"));
    one(header, place - 1, BYTES("\n"));
}

static void limit(void) {
    print_heading("blocks of 16384 and 16385 bytes: one short, exact, bytes behind them, a line feed as the last");
    ends(BYTES("#516384"), 16391);
    ends(BYTES("#9000016384"), 16395);
    ends(BYTES("#516385"), 16392);
    ends(BYTES("#9000016385"), 16396);
}

/* The pattern written into a buffer of one byte too few, of the block's size and of two more, and the block read again. */
static void both_ways(bytes pattern, size_t size) {
    show_write_block(pattern, size - 1);
    show_write_block(pattern, size);
    show_write_block(pattern, size + 2);
    static uint8_t space[LYNDON_MAX_DEFINITE_BLOCK];
    size_t count = 0;
    lyndon_write_block(pattern.at, pattern.n, space, sizeof space, &count);
    show_read_block(part((bytes){ space, sizeof space }, 0, count));
}

static void written(void) {
    print_heading("blocks written: a buffer one short, exact, longer; the block read again");
    both_ways(BYTES(""), 3);
    both_ways(BYTES("a"), 4);
    both_ways(BYTES("abcdefghi"), 12);
    both_ways(BYTES("abcdefghij"), 14);
    both_ways(BYTES("#10\n"), 7);
    both_ways(BYTES("\x00\xFF\r\n"), 7);
}

/* Counts that are next to a digit more, and the limit. */
static void sizes(void) {
    both_ways(letters('a', 99), 103);
    both_ways(letters('a', 100), 105);
    both_ways(letters('a', 999), 1004);
    both_ways(letters('a', 1000), 1006);
    both_ways(letters('a', 9999), 10005);
    both_ways(letters('a', 10000), 10007);
    both_ways(letters('a', 16384), 16391);
    show_write_block(letters('a', 16385), 16392);
    show_write_block(letters('a', 16385), 16391);
    show_write_block(letters('a', 16385), 0);
}

void run_blocks(void) {
    headers();
    lengths();
    limit();
    written();
    sizes();
}
