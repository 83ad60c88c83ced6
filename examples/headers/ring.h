#ifndef RING_H
#define RING_H

#include <stdbool.h>
#include <stdint.h>

#define RING_SIZE 16u /* a power of two */
#define RING_MASK (RING_SIZE - 1u)

struct ring {
  volatile uint8_t data[RING_SIZE];
  volatile uint32_t head; /* the handler of the receiver writes here */
  volatile uint32_t tail; /* the main loop reads here */
  uint32_t overruns;
};

static inline uint32_t ring_count(const struct ring *r) { return r->head - r->tail; }
static inline bool ring_is_empty(const struct ring *r) { return r->head == r->tail; }
static inline bool ring_is_full(const struct ring *r) { return ring_count(r) == RING_SIZE; }

bool ring_put(struct ring *r, uint8_t byte);
int32_t ring_take(struct ring *r);

#endif
