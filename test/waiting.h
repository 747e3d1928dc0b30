/*
 * How long a worker can be kept waiting (02, Q-10), asked of the stepped run
 * alone: it is called with a schedule, and with the same one and some names
 * more. Once a worker's step would advance, no step of another makes it held;
 * and in a stretch that names every worker some step advances, unless the run
 * had finished before.
 */
#ifndef WAITING_H
#define WAITING_H

#include "lent.h"

/* Tries both on some hundred flows; `made` and `memory` are for its use. Says
   the first of each that goes wrong, and then what was tried; answers how many
   went wrong. */
uint32_t try_waiting(const struct calls *calls, struct test_case *made, struct memory *memory);

#endif
