// Boost.Interval over doubles: outward rounding by the rounding mode, and libm's exp and log under that mode, which no document of libm's promises to be directed.
#include "shared.h"

#include <boost/numeric/interval.hpp>
#include <cmath>

namespace {

using namespace boost::numeric::interval_lib;
using Rounding = rounded_transc_opp<double>;
using Guarded = boost::numeric::interval<double, policies<save_state<Rounding>, checking_base<double>>>;
using Interval = unprotect<Guarded>::type;
using Mode = Guarded::traits_type::rounding;

Interval ratio(double above, double below) { return Interval(above) / Interval(below); }

Interval power(const Interval &t, const Interval &a) { return exp(a * log(t)); }

// Numbers made once, under the rounding mode.
struct Constants {
    Mode mode;
    Interval third = ratio(1, 3), sixth = ratio(1, 6), gas_g = ratio(6, 7), aerosol_g{ 0.75 };
    Interval k1_124 = ratio(1124, 1000), k1_66 = ratio(166, 100), k0_26 = ratio(26, 100);
    Interval k3_4217 = ratio(34217, 10000), k0_898 = ratio(898, 1000), k0_0096 = ratio(96, 10000);
    Interval k0_125{ 0.125 }, k0_137 = ratio(137, 1000), k0_023 = ratio(23, 1000), k0_022 = ratio(22, 1000), k0_16 = ratio(16, 100);
    Interval k0_83 = ratio(83, 100), k0_14 = ratio(14, 100), k0_06 = ratio(6, 100), k0_01 = ratio(1, 100), k0_0025 = ratio(25, 10000);
    Interval k0_34 = ratio(34, 100), k0_4 = ratio(4, 10), k4_2 = ratio(42, 10), k1_3 = ratio(13, 10);
    Interval k8_4 = ratio(84, 10), k9_3 = ratio(93, 10), k7_4 = ratio(74, 10), k11_3 = ratio(113, 10);
    Interval air_power = power(square(Interval(double(AIR))), third), air_root = sqrt(Interval(double(AIR))); // of standard air
    Interval near_gas_impulse = gas_impulse(log(ratio(142, 1000)));

    Interval gas_impulse(const Interval &l) const { return exp(-(k3_4217 + k0_898 * l + k0_0096 * square(l))); }
    Interval gas_pressure(const Interval &l) const { return exp(k0_26 * square(l) - k1_66 * l - k1_124); }
};

const Constants *k;

Interval mach_number(const cloud *c)
{
    static const double speed[] = { 0, 0, 500, 300, 200, 43, 26 };
    Interval v(speed[c->range]);
    if (c->range >= 5)
        v = min(v * power(Interval(double(c->mass)) / 1000.0, k->sixth), Interval(speed[4]));
    return v / double(SOUND);
}

void round_out(int64_t ends[2], const Interval &of)
{
    ends[0] = int64_t(std::floor(of.lower()));
    ends[1] = int64_t(std::ceil(of.upper()));
}

// A whole number below 2^64 as an interval.
Interval whole(uint64_t n) { return Interval(double(uint32_t(n >> 32))) * 4294967296.0 + Interval(double(uint32_t(n))); }

}

extern "C" void prepare(long)
{
    k = new Constants;
}

extern "C" void work(const cloud *c, figures *f)
{
    Mode mode;
    Interval energy = whole(c->joules) / double(c->parts);
    if (c->aerosol)
        energy *= 0.75;
    Interval air(double(c->air)), air_power = c->air == AIR ? k->air_power : power(square(air), k->third);
    Interval air_root = c->air == AIR ? k->air_root : sqrt(air);
    Interval rx = Interval(double(c->distance)) / 100.0 / power(energy / air, k->third);
    Interval px(18.0), ix;
    if (c->near)
        ix = c->state == 0 ? k->near_gas_impulse : k->k0_16;
    else if (c->state == 0) {
        Interval l = log(rx);
        px = k->gas_pressure(l);
        ix = k->gas_impulse(l);
    } else {
        Interval x2 = square(rx);
        px = k->k0_125 / rx + k->k0_137 / x2 + k->k0_023 / (x2 * rx);
        ix = k->k0_022 / rx;
    }
    if (c->range > 1) {
        Interval w = mach_number(c), g = c->state == 0 ? k->gas_g : k->aerosol_g, x = c->under ? k->k0_34 : rx, x2 = square(x);
        px = min(px, square(w) * g * (k->k0_83 / x - k->k0_14 / x2));
        ix = min(ix, w * g * (1.0 - k->k0_4 * g * w) * (k->k0_06 / x + k->k0_01 / x2 - k->k0_0025 / (x2 * x)));
    }
    Interval p = px * air, i = ix * air_power * power(energy, k->third) / double(SOUND);
    round_out(f->pressure, p);
    round_out(f->impulse, i);
    round_out(f->probit[0], 5000.0 - 260.0 * log(power(17500.0 / p, k->k8_4) + power(290.0 / i, k->k9_3)));
    round_out(f->probit[1], 5000.0 - 220.0 * log(power(40000.0 / p, k->k7_4) + power(460.0 / i, k->k11_3)));
    round_out(f->probit[2], 5000.0 - 5740.0 * log(k->k4_2 / (1.0 + p / air) + k->k1_3 * air_root * power(Interval(double(c->body)), k->third) / i));
    round_out(f->probit[3], 1524.0 * log(p) - 12600.0);
    round_out(f->probit[4], 5000.0 - 2440.0 * log(7380.0 / p + 1300000000.0 / (p * i)));
}
