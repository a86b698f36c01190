/* Plain doubles and libm: the guidance as a program without any guarantee would work it. The ends are the floor and the ceiling of one double. */
#include "plain_double.h"

#include <math.h>

/* P0^(2/3) and P0^(1/2) in standard air, made once. */
static double air_power, air_root, near_gas_impulse;

static double gas_impulse(double log) { return exp(-3.4217 - 0.898 * log - 0.0096 * log * log); }

void prepare(long bits)
{
    (void)bits;
    air_power = cbrt((double)AIR * AIR);
    air_root = sqrt(AIR);
    near_gas_impulse = gas_impulse(log(0.142));
}

static double energy_of(const struct cloud *c)
{
    double e = (double)c->joules / c->parts;
    return c->aerosol ? 0.75 * e : e;
}

static double reduced_distance(const struct cloud *c, double energy)
{
    return c->distance / 100.0 / cbrt(energy / c->air);
}

/* V of ranges 5 and 6, over C0: never faster than range 4. */
static double slow_mach(double factor, const struct cloud *c)
{
    double v = factor * pow(c->mass / 1000.0, 1.0 / 6);
    return (v < 200 ? v : 200) / SOUND;
}

static double mach_number(const struct cloud *c)
{
    switch (c->range) {
    case 2: return 500.0 / SOUND;
    case 3: return 300.0 / SOUND;
    case 4: return 200.0 / SOUND;
    case 5: return slow_mach(43, c);
    default: return slow_mach(26, c);
    }
}

static double least(double a, double b) { return a < b ? a : b; }

double overpressure(const struct cloud *c)
{
    double rx = reduced_distance(c, energy_of(c)), px = 18;
    if (!c->near) {
        if (c->state == 0) {
            double l = log(rx);
            px = exp(-1.124 - 1.66 * l + 0.26 * l * l);
        } else
            px = 0.125 / rx + 0.137 / (rx * rx) + 0.023 / (rx * rx * rx);
    }
    if (c->range > 1) {
        double w = mach_number(c), g = c->state == 0 ? 6.0 / 7 : 0.75, x = c->under ? 0.34 : rx;
        px = least(px, w * w * g * (0.83 / x - 0.14 / (x * x)));
    }
    return px * c->air;
}

static void round_out(int64_t ends[2], double value)
{
    ends[0] = (int64_t)floor(value);
    ends[1] = (int64_t)ceil(value);
}

void work(const struct cloud *c, struct figures *f)
{
    double energy = energy_of(c), rx = reduced_distance(c, energy), px = 18, ix;
    if (c->state == 0) {
        if (c->near)
            ix = near_gas_impulse;
        else {
            double l = log(rx);
            px = exp(-1.124 - 1.66 * l + 0.26 * l * l);
            ix = gas_impulse(l);
        }
    } else if (c->near)
        ix = 0.16;
    else {
        px = 0.125 / rx + 0.137 / (rx * rx) + 0.023 / (rx * rx * rx);
        ix = 0.022 / rx;
    }
    if (c->range > 1) {
        double w = mach_number(c), g = c->state == 0 ? 6.0 / 7 : 0.75, x = c->under ? 0.34 : rx;
        px = least(px, w * w * g * (0.83 / x - 0.14 / (x * x)));
        ix = least(ix, w * g * (1 - 0.4 * g * w) * (0.06 / x + 0.01 / (x * x) - 0.0025 / (x * x * x)));
    }
    int standard = c->air == AIR;
    double power = standard ? air_power : cbrt((double)c->air * c->air), root = standard ? air_root : sqrt(c->air);
    double p = px * c->air, i = ix * power * cbrt(energy) / SOUND;
    round_out(f->pressure, p);
    round_out(f->impulse, i);
    round_out(f->probit[0], 5000 - 260 * log(pow(17500 / p, 8.4) + pow(290 / i, 9.3)));
    round_out(f->probit[1], 5000 - 220 * log(pow(40000 / p, 7.4) + pow(460 / i, 11.3)));
    round_out(f->probit[2], 5000 - 5740 * log(4.2 / (1 + p / c->air) + 1.3 * root * cbrt(c->body) / i));
    round_out(f->probit[3], -12600 + 1524 * log(p));
    round_out(f->probit[4], 5000 - 2440 * log(7380 / p + 1300000000 / (p * i)));
}
