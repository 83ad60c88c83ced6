// A PID controller in fixed point, with its integral held and its output clamped, on a first-order plant.
#include "fixed_point.h"
#include <stdio.h>

struct pid {
    int32_t kp, ki, kd;
    int32_t integral, last_error;
    int32_t out_min, out_max;
};

static struct pid heater = { TO_Q(2), TO_Q(1) / 8, TO_Q(1) / 2, 0, 0, TO_Q(0), TO_Q(100) };

static int32_t pid_update(struct pid *p, int32_t setpoint, int32_t measured)
{
    const int32_t error = setpoint - measured;
    int32_t output;

    p->integral = CLAMP(p->integral + q_mul(p->ki, error), p->out_min, p->out_max);
    output = q_mul(p->kp, error) + p->integral + q_mul(p->kd, error - p->last_error);
    p->last_error = error;
    return CLAMP(output, p->out_min, p->out_max);
}

static int32_t plant_step(int32_t temperature, int32_t power)
{
    return temperature + (power - temperature) / 16;
}

static void put_decimal(int32_t n)
{
    if (n < 0) {
        putchar('-');
        n = -n;
    }
    for (int32_t unit = 1000000000; unit >= 1; unit /= 10)
        if (n >= unit || unit == 1)
            putchar('0' + n / unit % 10);
}

int main(void)
{
    int32_t temperature = TO_Q(20);
    const int32_t setpoint = TO_Q(60);

    for (unsigned tick = 0; tick < 96; tick++) {
        const int32_t power = pid_update(&heater, setpoint, temperature);
        temperature = plant_step(temperature, power);
        if (tick % 8 == 7) {
            put_decimal(FROM_Q(temperature));
            putchar(' ');
            put_decimal(FROM_Q(power));
            putchar('\n');
        }
    }
    return FROM_Q(temperature);
}
