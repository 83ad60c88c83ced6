// A packet parser: a start byte, a length, data, and a CRC-8 of both; fed byte by byte, as a receiver does.
#include "packet.h"
#include <stdio.h>

static parser_t parser;

static inline uint8_t crc8(uint8_t crc, uint8_t byte)
{
    crc ^= byte;
    for (int i = 0; i < 8; i++)
        crc = (uint8_t)((crc & 0x80u) != 0u ? crc << 1 ^ 0x07 : crc << 1);
    return crc;
}

bool parser_feed(parser_t *p, uint8_t byte)
{
    if (p->state == WAIT_START) {
        if (byte == PACKET_START)
            p->state = WAIT_LENGTH;
    } else if (p->state == WAIT_LENGTH) {
        if (byte == 0 || byte > PACKET_MAX) {
            p->bad++;
            p->state = WAIT_START;
        } else {
            p->packet.length = byte;
            p->crc = crc8(0, byte);
            p->at = 0;
            p->state = WAIT_DATA;
        }
    } else if (p->state == WAIT_DATA) {
        p->packet.data[p->at++] = byte;
        p->crc = crc8(p->crc, byte);
        if (p->at == p->packet.length)
            p->state = WAIT_CRC;
    } else {
        p->state = WAIT_START;
        if (byte == p->crc) {
            p->good++;
            return true;
        }
        p->bad++;
    }
    return false;
}

static void put_hex(uint8_t byte)
{
    putchar("0123456789abcdef"[byte >> 4]);
    putchar("0123456789abcdef"[byte & 15]);
}

static void print_packet(const packet_t *p)
{
    for (size_t i = 0; i < p->length; i++)
        put_hex(p->data[i]);
    putchar('\n');
}

int main(void)
{
    int c;

    while ((c = getchar()) != EOF)
        if (parser_feed(&parser, (uint8_t)c))
            print_packet(&parser.packet);
    return (int)(parser.good * 16 + parser.bad);
}
