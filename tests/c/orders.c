/* The rows of ranks, as orders.h says. */
#include "orders.h"

#include "lyndon.h"

#include <string.h>

#define SIZE LYNDON_ORDER

static uint8_t bytewise[2 * SIZE], reverse[SIZE], shuffled[SIZE], zeros[SIZE], twice[3][SIZE];

ranking orders[ORDERS] = {
    [BYTE_ORDER] = { "byte order", { bytewise, SIZE }, 0 },
    [REVERSE] = { "the reverse order", { reverse, SIZE }, 0 },
    [SHUFFLED] = { "a shuffled order", { shuffled, SIZE }, 0 },
};

ranking no_orders[NO_ORDERS] = {
    { "an empty row", { bytewise, 0 }, 13 },
    { "255 ranks", { bytewise, SIZE - 1 }, 13 },
    { "257 ranks", { bytewise, SIZE + 1 }, 13 },
    { "byte order twice over", { bytewise, 2 * SIZE }, 13 },
    { "zeros", { zeros, SIZE }, 13 },
    { "the first rank twice", { twice[0], SIZE }, 13 },
    { "the last rank twice", { twice[1], SIZE }, 13 },
    { "a shuffled rank twice", { twice[2], SIZE }, 13 },
};

/* Each rank changes places with one that is not behind it. */
void shuffle(chance *c, uint8_t *ranks) {
    for (size_t k = 0; k < SIZE; k++) {
        size_t other = draw(c, k + 1);
        if (other < k) ranks[k] = ranks[other];
        ranks[other] = (uint8_t)k;
    }
}

void prepare_orders(void) {
    chance c = 1;
    for (size_t k = 0; k < 2 * SIZE; k++) bytewise[k] = (uint8_t)k;
    for (size_t k = 0; k < SIZE; k++) reverse[k] = (uint8_t)(SIZE - 1 - k);
    shuffle(&c, shuffled);
    memcpy(twice[0], bytewise, SIZE);
    twice[0][1] = 0;
    memcpy(twice[1], bytewise, SIZE);
    twice[1][SIZE - 2] = SIZE - 1;
    memcpy(twice[2], shuffled, SIZE);
    twice[2][SIZE / 2] = shuffled[SIZE - 1];
}

uint8_t first_refusal(const ranking *o, uint8_t number) {
    return o->refusal == 0 ? number : o->refusal;
}

uint8_t byte_of(bytes ranks, size_t rank) {
    size_t b = 0;
    while (ranks.at[b] != rank) b++;
    return (uint8_t)b;
}
