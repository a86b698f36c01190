/* The overpressure alone in plain doubles, for the driver that times it. */
#ifndef PLAIN_DOUBLE_H
#define PLAIN_DOUBLE_H

#include "shared.h"

double overpressure(const struct cloud *c);

#endif
