// The curve, the clocks and the limits, single and paired, of same.c: one unit with it.
#ifndef LIMITS_H
#define LIMITS_H
#include "desk.h"

static uint32_t least(uint32_t a, uint32_t b) { return a < b ? a : b; }
static bool below(uint32_t m, uint32_t h) { return 9 * (uint64_t)m < 25 * (uint64_t)h; }

static void older(uint16_t *age) { *age = *age < 30000 ? *age + 1 : 30000; }

static void further(uint32_t *distance, uint32_t m) {
    uint64_t sum = (uint64_t)*distance + m;
    *distance = sum < 60000000 ? (uint32_t)sum : 60000000;
}

static uint32_t row_speed(const struct row *r, uint16_t age) {
    if (age <= r->delay) return r->initial * 100u;
    uint32_t fall = (uint32_t)(age - r->delay) * r->drop, from = r->initial * 100u, to = r->last * 100u;
    uint32_t fallen = fall < from ? from - fall : 0;
    return fallen > to ? fallen : to;
}

// ---- the single limit

static void set_limit(struct limit *l, uint16_t age, bool answered) {
    if (!l->on) l->age = age;
    l->on = true;
    l->answered = answered;
    l->steps = 0;
}

static uint32_t stepped_final(const struct limit *l, uint8_t last, uint32_t top) {
    uint32_t plain = last * 100u;
    return l->steps ? least(plain + l->steps * 2000u, least(top, 16000)) : plain;
}

static bool removable(const struct limit *l, uint32_t m, uint8_t last, uint32_t top) { return l->on && below(m, stepped_final(l, last, top)); }

static uint32_t limit_speed(const struct limit *l, const struct row *row, uint32_t top) {
    uint32_t speed = row_speed(row, l->age);
    return speed > row->last * 100u ? speed : stepped_final(l, row->last, top);
}

// ---- paired limits

// Of the paired limits 0..3, the lowest first.
static uint32_t paired_speed(int i, uint32_t top) {
    static const uint16_t speeds[4] = {3000, 4000, 5000, 7000};
    return least(top, speeds[i]);
}

static bool paired_on(const struct paired *p, int i) { return p->on >> i & 1; }

static void set_paired(struct paired *p, uint8_t speed) {
    int i = speed == 30 ? 0 : speed == 40 ? 1 : speed == 50 ? 2 : 3;
    p->on |= (uint8_t)(1 << i);
    p->age[i] = 0;
}

static void pairs_older(struct desk *d, uint32_t m) {
    for (int i = 0; i < 4; i++)
        if (paired_on(&d->paired, i)) older(&d->paired.age[i]);
    if (d->first.code) further(&d->first.distance, m);
}

// The lowest paired limit that may go, 4 where none may.
static int lowest_paired(const struct paired *p, uint32_t m, uint32_t top) {
    int i = 0;
    while (i < 4 && !(paired_on(p, i) && below(m, paired_speed(i, top)))) i++;
    return i;
}

// ---- all limits

static bool one_may_go(const struct desk *d, uint32_t m, uint8_t last, uint32_t top) {
    return removable(&d->limit, m, last, top) || (d->paired.on && lowest_paired(&d->paired, m, top) < 4);
}

// The lowest of those that may go; of equal ones the paired one.
static void take_off(struct desk *d, uint32_t m, uint8_t last, uint32_t top) {
    bool single = removable(&d->limit, m, last, top);
    int i = d->paired.on ? lowest_paired(&d->paired, m, top) : 4;
    if (i < 4 && !(single && stepped_final(&d->limit, last, top) < paired_speed(i, top))) d->paired.on &= (uint8_t)~(1 << i);
    else if (single) d->limit = (struct limit){.on = false};
}
#endif
