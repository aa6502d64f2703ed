/* The peak memory of one call. */
#ifndef MEMORY_H
#define MEMORY_H

#include "peers/peers.h"

/* MB by which the most memory resident at once grows over one call in a process of its own, beyond the burst and, where the call reads them,
   the lent vectors (else NULL): its result, its scratch, its stack and what a library it uses keeps. */
double peak_megabytes(const peer *p, const burst *b, const noise_levels *n, vector *vectors);

#endif
