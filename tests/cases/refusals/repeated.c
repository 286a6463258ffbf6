/* Refusal 10, of the phase mark alone: shorter words repeated two or more times, and patterns next to them, which are not. The longest are
 * halves and thirds of some 16,384 bytes. */
#include "groups.h"
#include "print.h"
#include "show.h"

static void refused(bytes order) {
    print_heading("a shorter word repeated");
    show_least_rotation(BYTES("aa"), order);
    show_least_rotation(BYTES("aaa"), order);
    show_least_rotation(BYTES("abab"), order);
    show_least_rotation(BYTES("baba"), order);
    show_least_rotation(BYTES("abcabcabc"), order);
    show_least_rotation(BYTES("baabaabaabaabaa"), order);
    show_least_rotation(BYTES("\x80\x7F\x80\x7F"), order);
}

static void accepted(bytes order) {
    print_heading("no shorter word repeated");
    show_least_rotation(BYTES("a"), order);
    show_least_rotation(BYTES("ab"), order);
    show_least_rotation(BYTES("abba"), order);
    show_least_rotation(BYTES("ababa"), order);
    show_least_rotation(BYTES("abcabcab"), order);
    show_least_rotation(BYTES("babaabab"), order);
    show_least_rotation(BYTES("bbabbabbabbabab"), order);
}

/* a^8191 b twice, and with its last byte larger; a^5460 b three times. */
static void long_patterns(bytes order) {
    print_heading("16384 bytes: equal halves, and with the last byte larger; 16383 bytes: equal thirds");
    static uint8_t space[16384];
    bytes halves = all_but_last(space, 16384);
    space[8191] = 'b';
    show_least_rotation(halves, order);
    space[16383] = 'c';
    show_least_rotation(halves, order);
    bytes thirds = all_but_last(space, 16383);
    space[5460] = 'b';
    space[10921] = 'b';
    show_least_rotation(thirds, order);
}

void run_repeated(bytes order) {
    refused(order);
    accepted(order);
    long_patterns(order);
}
