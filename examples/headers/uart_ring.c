// A receiver's ring buffer: bytes come in bursts, the main loop takes them line by line, and what doesn't fit counts.
#include "ring.h"
#include <stddef.h>
#include <stdio.h>

#define BURST 24
#define LINE_MAX 12

static struct ring rx;
static char line[LINE_MAX + 1];
static size_t used;

bool ring_put(struct ring *r, uint8_t byte)
{
    if (ring_is_full(r)) {
        r->overruns++;
        return false;
    }
    r->data[r->head & RING_MASK] = byte;
    r->head++;
    return true;
}

int32_t ring_take(struct ring *r)
{
    uint8_t byte;

    if (ring_is_empty(r))
        return EOF;
    byte = r->data[r->tail & RING_MASK];
    r->tail++;
    return byte;
}

/* what the handler of the receiver's interrupt would do */
static bool receive_burst(void)
{
    for (int i = 0; i < BURST; i++) {
        int c = getchar();
        if (c == EOF)
            return false;
        ring_put(&rx, (uint8_t)c);
    }
    return true;
}

static void put_text(const char *s)
{
    while (*s != '\0')
        putchar(*s++);
}

static void put_decimal(uint32_t n)
{
    char digits[10];
    size_t i = 0;

    do {
        digits[i++] = (char)('0' + n % 10u);
        n /= 10u;
    } while (n != 0u);
    while (i > 0u)
        putchar(digits[--i]);
}

static void end_line(void)
{
    line[used] = '\0';
    put_decimal(used);
    putchar(':');
    put_text(line);
    putchar('\n');
    used = 0;
}

static void main_loop(void)
{
    int32_t c;

    while ((c = ring_take(&rx)) != EOF) {
        if (c == '\n')
            end_line();
        else if (used < LINE_MAX)
            line[used++] = (char)c;
    }
}

int main(void)
{
    bool more = true;

    while (more) {
        more = receive_burst();
        main_loop();
    }
    if (used > 0u)
        end_line();
    put_text("lost ");
    put_decimal(rx.overruns);
    putchar('\n');
    return 0;
}
