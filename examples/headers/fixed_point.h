#ifndef FIXED_POINT_H
#define FIXED_POINT_H

#include <limits.h>
#include <stdint.h>

/* numbers in steps of 1/256 */
#define Q 8
#define TO_Q(n) ((n) * (1 << Q))
#define FROM_Q(n) ((n) / (1 << Q))
#define CLAMP(x, low, high) ((x) < (low) ? (low) : (x) > (high) ? (high) : (x))

static inline int32_t q_mul(int32_t a, int32_t b) { return a * b / (1 << Q); }

#endif
