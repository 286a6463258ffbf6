/* The deepest stack that a function touches: it runs on a thread whose stack was painted, and what is no longer paint is counted.
 * What to run is left to the caller. */
#ifndef PAINTED_H
#define PAINTED_H

#include <stddef.h>

/* Bytes of stack below the caller's frame that `run` touches, its return address counted; over half a MiB end the program. */
size_t touched(void (*run)(void));

#endif
