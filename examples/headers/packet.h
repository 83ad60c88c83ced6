#ifndef PACKET_H
#define PACKET_H

#include <stdbool.h>
#include <stddef.h>
#include <stdint.h>

#define PACKET_START 0x7eu
#define PACKET_MAX 8u

/* the parser's states */
#define WAIT_START 0
#define WAIT_LENGTH 1
#define WAIT_DATA 2
#define WAIT_CRC 3

typedef struct {
  uint8_t length;
  uint8_t data[PACKET_MAX];
} packet_t;

typedef struct {
  int state;
  size_t at;
  uint8_t crc;
  packet_t packet;
  uint32_t good, bad;
} parser_t;

bool parser_feed(parser_t *p, uint8_t byte);

#endif
