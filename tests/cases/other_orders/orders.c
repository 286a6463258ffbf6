/* The orders of the cases, as orders.h says. That each rank is there once is left to the engine, which refuses what is no order. */
#include "orders.h"

bytes stepping(uint8_t *space, uint8_t first, uint8_t step) {
    uint8_t rank = first;
    for (size_t b = 0; b < LYNDON_ORDER; b++) {
        space[b] = rank;
        rank = (uint8_t)(rank + step);
    }
    return (bytes){ space, LYNDON_ORDER };
}

bytes moved(uint8_t *space) {
    bytes order = byte_order(space);
    space['b'] = 'a';
    space['c'] = 'b';
    space['a'] = 'c';
    space[0x7F] = 0x80;
    space[0x80] = 0x7F;
    return order;
}
