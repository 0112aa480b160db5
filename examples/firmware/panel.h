/* The glass: two digits on two PCF8532 in 1:3, from the last column of chip 0 on, and where each of their elements is. */
#ifndef PANEL_H
#define PANEL_H

#include <humtrellis.h>

enum { PART = HUMTRELLIS_PCF8532, CHIPS = 2, COLUMNS = CHIPS * HUMTRELLIS_COLUMNS };

static const struct { const char *name; int column, backplane; } panel[] = {
    {"b of digit 0", 159, 0},  {"point of digit 0", 159, 1}, {"c of digit 0", 159, 2},
    {"a of digit 0", 160, 0},  {"d of digit 0", 160, 1},     {"minus bar (g of digit 0)", 160, 2},
    {"f of digit 0", 161, 0},  {"e of digit 0", 161, 1},
    {"b of digit 1", 162, 0},  {"point of digit 1", 162, 1}, {"c of digit 1", 162, 2},
    {"a of digit 1", 163, 0},  {"d of digit 1", 163, 1},     {"g of digit 1", 163, 2},
    {"f of digit 1", 164, 0},  {"e of digit 1", 164, 1},
};

enum { ELEMENTS = sizeof panel / sizeof panel[0] };

#endif
