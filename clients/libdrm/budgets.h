/* How much of the display's memory and descriptors each user may have for fences, synchronisation
 * objects and waits, so that one user leaves some for the others. */
#ifndef ZIRKOSHE_LIBDRM_BUDGETS_H
#define ZIRKOSHE_LIBDRM_BUDGETS_H

#include <stdbool.h>
#include <sys/types.h>

/* A descriptor costs as much as this many fences. */
#define COST_OF_DESCRIPTOR 16u

/* Takes from the budget of a user; false if not as much is left. Gives it back. */
bool budget_take(uid_t user, unsigned cost);
void budget_give(uid_t user, unsigned cost);

#endif
