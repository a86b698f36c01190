/* The guidance's formulas over intervals of any kind, written once. A peer declares its numbers and the operations below, then includes this file:
   number, into, from              an interval, one that is written, one that is read
   set_precision(bits)             before anything else
   fresh(r), whole(r, n), copy(r, a)
   plus, minus, times, over, smaller (r, a, b), square(r, a), square_root(r, a), root(r, a, 3 or 6), ln(r, a), power_of_e(r, a)
   times_whole(r, a, n), over_whole(r, a, n), whole_over(r, n, a), whole_minus(r, n, a), minus_whole(r, a, n)
   round_out(ends, a)              the whole numbers around it */
#ifndef FORMULAS_H
#define FORMULAS_H

/* Numbers made once. */
static number standard_air, standard_power, standard_root, near_gas_impulse, gas_g, aerosol_g;
static number k1_124, k1_66, k0_26, k3_4217, k0_898, k0_0096, k0_125, k0_137, k0_023, k0_022, k0_16, k0_83, k0_14, k0_06, k0_01, k0_0025, k0_34,
    k0_4, k4_2, k1_3, k8_4, k9_3, k7_4, k11_3;

/* P0, P0^(2/3) and P0^(1/2) of the case at hand: those of standard air or the next three. */
static from air, air_power, air_root;

/* Numbers of the case at hand. */
static number own_air, own_power, own_root, energy, rx, px, ix, l, w, x, x2, x3, s, t, u, p, i, a, b;

static void ratio(into k, unsigned long above, unsigned long below)
{
    fresh(k);
    whole(k, above);
    over_whole(k, k, below);
}

static void gas_impulse(into r, from log)
{
    times(r, k0_0096, log);
    plus(r, r, k0_898);
    times(r, r, log);
    plus(r, r, k3_4217);
    whole_minus(r, 0, r);
    power_of_e(r, r);
}

static void gas_pressure(into r, from log)
{
    times(r, k0_26, log);
    minus(r, r, k1_66);
    times(r, r, log);
    minus(r, r, k1_124);
    power_of_e(r, r);
}

static void set_air(into p0, into p0_power, into p0_root, unsigned long pascals)
{
    whole(p0, pascals);
    square(t, p0);
    root(p0_power, t, 3);
    square_root(p0_root, p0);
}

static void take_air(const struct cloud *c)
{
    int standard = c->air == AIR;
    if (!standard)
        set_air(own_air, own_power, own_root, c->air);
    air = standard ? standard_air : own_air;
    air_power = standard ? standard_power : own_power;
    air_root = standard ? standard_root : own_root;
}

void prepare(long bits)
{
    set_precision(bits);
    into made[] = { standard_air, standard_power, standard_root, own_air, own_power, own_root, near_gas_impulse,
                    energy, rx, px, ix, l, w, x, x2, x3, s, t, u, p, i, a, b };
    for (size_t n = 0; n < sizeof made / sizeof *made; n++)
        fresh(made[n]);
    ratio(gas_g, 6, 7), ratio(aerosol_g, 3, 4);
    ratio(k1_124, 1124, 1000), ratio(k1_66, 166, 100), ratio(k0_26, 26, 100);
    ratio(k3_4217, 34217, 10000), ratio(k0_898, 898, 1000), ratio(k0_0096, 96, 10000);
    ratio(k0_125, 125, 1000), ratio(k0_137, 137, 1000), ratio(k0_023, 23, 1000), ratio(k0_022, 22, 1000), ratio(k0_16, 16, 100);
    ratio(k0_83, 83, 100), ratio(k0_14, 14, 100), ratio(k0_06, 6, 100), ratio(k0_01, 1, 100), ratio(k0_0025, 25, 10000);
    ratio(k0_34, 34, 100), ratio(k0_4, 4, 10), ratio(k4_2, 42, 10), ratio(k1_3, 13, 10);
    ratio(k8_4, 84, 10), ratio(k9_3, 93, 10), ratio(k7_4, 74, 10), ratio(k11_3, 113, 10);
    set_air(standard_air, standard_power, standard_root, AIR);
    whole(t, 142);
    over_whole(t, t, 1000);
    ln(l, t);
    gas_impulse(near_gas_impulse, l);
}

static void mach_number(const struct cloud *c)
{
    static const unsigned long speed[] = { 0, 0, 500, 300, 200, 43, 26 };
    if (c->range < 5)
        whole(w, speed[c->range]);
    else {
        whole(t, c->mass);
        over_whole(t, t, 1000);
        root(w, t, 6);
        times_whole(w, w, speed[c->range]);
        whole(t, speed[4]);
        smaller(w, w, t);
    }
    over_whole(w, w, SOUND);
}

/* Square and cube, x2 and x3. */
static void powers(from of)
{
    square(x2, of);
    times(x3, x2, of);
}

/* r + k/of and r - k/of */
static void more(into r, from k, from of)
{
    over(t, k, of);
    plus(r, r, t);
}

static void less(into r, from k, from of)
{
    over(t, k, of);
    minus(r, r, t);
}

/* The smaller of px, ix and the deflagration's. */
static void deflagration(const struct cloud *c)
{
    from g = c->state == 0 ? gas_g : aerosol_g;
    mach_number(c);
    copy(x, c->under ? k0_34 : rx);
    powers(x);
    over(s, k0_83, x);
    less(s, k0_14, x2);
    square(t, w);
    times(t, t, g);
    times(s, s, t);
    smaller(px, px, s);
    over(s, k0_06, x);
    more(s, k0_01, x2);
    less(s, k0_0025, x3);
    times(t, w, g);
    times(u, t, k0_4);
    whole_minus(u, 1, u);
    times(t, t, u);
    times(s, s, t);
    smaller(ix, ix, s);
}

static void detonation(const struct cloud *c)
{
    whole(px, 18);
    if (c->near) {
        copy(ix, c->state == 0 ? near_gas_impulse : k0_16);
        return;
    }
    if (c->state == 0) {
        ln(l, rx);
        gas_pressure(px, l);
        gas_impulse(ix, l);
        return;
    }
    powers(rx);
    over(px, k0_125, rx);
    more(px, k0_137, x2);
    more(px, k0_023, x3);
    over(ix, k0_022, rx);
}

/* The overpressure p and the impulse i. */
static void waves(const struct cloud *c)
{
    take_air(c);
    whole(energy, c->joules);
    over_whole(energy, energy, c->parts);
    if (c->aerosol)
        times(energy, energy, aerosol_g); /* 3/4 too */
    over(t, energy, air);
    root(u, t, 3);
    whole(rx, c->distance);
    over_whole(rx, rx, 100);
    over(rx, rx, u);
    detonation(c);
    if (c->range > 1)
        deflagration(c);
    times(p, px, air);
    root(t, energy, 3);
    times(i, ix, air_power);
    times(i, i, t);
    over_whole(i, i, SOUND);
}

/* (above/of)^power */
static void share(into r, unsigned long above, from of, from power)
{
    whole_over(r, above, of);
    ln(r, r);
    times(r, r, power);
    power_of_e(r, r);
}

/* 5000 - factor ln (a + b) */
static void falling(int64_t ends[2], unsigned long factor)
{
    plus(a, a, b);
    ln(t, a);
    times_whole(t, t, factor);
    whole_minus(t, 5000, t);
    round_out(ends, t);
}

void work(const struct cloud *c, struct figures *f)
{
    waves(c);
    round_out(f->pressure, p);
    round_out(f->impulse, i);
    share(a, 17500, p, k8_4), share(b, 290, i, k9_3);
    falling(f->probit[0], 260);
    share(a, 40000, p, k7_4), share(b, 460, i, k11_3);
    falling(f->probit[1], 220);
    over(a, p, air);
    whole(t, 1);
    plus(a, a, t);
    over(a, k4_2, a);
    whole(t, c->body);
    root(b, t, 3);
    times(b, b, air_root);
    times(b, b, k1_3);
    over(b, b, i);
    falling(f->probit[2], 5740);
    ln(t, p);
    times_whole(t, t, 1524);
    minus_whole(t, t, 12600);
    round_out(f->probit[3], t);
    whole_over(a, 7380, p);
    times(b, p, i);
    whole_over(b, 1300000000, b);
    falling(f->probit[4], 2440);
}
#endif
