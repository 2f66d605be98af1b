/* What the functions of the C library ask of the display. */
#ifndef ZIRKOSHE_LIBDRM_PRELOAD_H
#define ZIRKOSHE_LIBDRM_PRELOAD_H

#include "asks.h"

/* Opens a node with these flags of open. Returns a descriptor or a negative errno. */
int open_node(enum node node, int flags);

/* Returns as the C library does, for an answer that may be a negative errno. */
int result_of(int answer);

#endif
