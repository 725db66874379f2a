// The logic of the crates card, curve, signals, sides, desk, buttons, beacons, step and session, step by step, in C.
// Every range is checked at each sample, as document 01 says; with SETTINGS_AT_OPENING the version and the settings beside it at the opening alone.
#include "limits.h"

// ---- settings and opening

static bool version_known(uint8_t version) { return version >= 1 && version <= 3; }

static bool pair_speed(uint8_t speed) { return speed == 30 || speed == 40 || speed == 50 || speed == 70; }

uint8_t settings_fault(uint8_t version, const struct settings *s) {
    if (s->vmax < 80 || s->vmax > 200) return 3;
    if (s->tick < 10 || s->tick > 1000) return 4;
    if (s->bts < 1 || s->bts > 200) return 6;
    for (int i = 0; i < 8; i++) {
        const struct row *r = &s->rows[i];
        if (r->initial < 1 || r->initial > 200) return (uint8_t)(7 + 4 * i);
        if (r->last < 1 || r->last > r->initial) return (uint8_t)(8 + 4 * i);
        if (r->drop < 1) return (uint8_t)(10 + 4 * i);
    }
    if (s->functions > (version == 1 ? 0 : 15)) return 39;
    if (s->functions & 4) {
        if (s->x < 2 || s->x > 6000) return 40;
        if (s->y < 1 || s->y > 5000) return 42;
    } else {
        if (s->x) return 40;
        if (s->y) return 42;
    }
    if (version == 3) {
        for (int i = 0; i < 4; i++)
            if (!pair_speed(s->pairs[i])) return (uint8_t)(44 + i);
        if (s->distance < 1 || s->distance > 50) return 48;
    } else {
        for (int i = 0; i < 4; i++)
            if (s->pairs[i]) return (uint8_t)(44 + i);
        if (s->distance) return 48;
    }
    return 0;
}

static uint8_t type_speed(uint8_t train) {
    static const uint8_t speeds[9] = {0, 80, 90, 100, 120, 140, 160, 180, 200};
    return train <= 8 ? speeds[train] : 0;
}

static bool type_allowed(uint8_t train, uint8_t vmax) { return train >= 1 && train <= 8 && type_speed(train) <= vmax; }

uint8_t session_open(struct session *s, uint8_t version, const struct settings *settings, uint8_t train) {
    if (!version_known(version)) return 2;
    if (settings_fault(version, settings)) return 5;
    if (!type_allowed(train, settings->vmax)) return 7;
    *s = (struct session){.settings = *settings, .version = version, .train = train, .desk = {.stood = 10, .main = {.kind = START}}};
    return 0;
}

// ---- ranges

static bool window_inside(const struct window *w) { return w->left <= 30000 && w->age <= 30000 && w->distance <= 60000000; }

static bool desk_inside(const struct desk *d) {
    return d->code <= 12 && d->cause <= 6 && d->stood <= 30000 && d->brake_age <= 30000 && d->main.age <= 30000 && d->main.distance <= 60000000 && window_inside(&d->window) &&
           window_inside(&d->side) && d->alongside.age <= 30000 && d->armed.age <= 30000 && d->reminder.age <= 30000 &&
           d->reminder.fast <= 30000 && d->reminder.distance <= 60000000 && d->crossing.age <= 30000 && d->crossing.distance <= 60000000 &&
           d->option.age <= 30000 && d->option.distance <= 60000000 && d->limit.age <= 30000 && d->limit.steps <= 8 &&
           d->paired.age[0] <= 30000 && d->paired.age[1] <= 30000 && d->paired.age[2] <= 30000 && d->paired.age[3] <= 30000 &&
           d->first.distance <= 60000000;
}

// ---- standstill

static uint16_t stood_after(const struct desk *d, uint16_t pulses) { return pulses ? 0 : d->stood < 30000 ? d->stood + 1 : 30000; }

static bool at_standstill(const struct desk *d, uint16_t pulses) { return pulses == 0 && stood_after(d, pulses) >= 10; }

// ---- mode, ages and misses

static void window_older(struct window *w, uint32_t m) {
    if (w->left) w->left--;
    older(&w->age);
    further(&w->distance, m);
}

static void take_over(struct desk *d, uint8_t kind, uint16_t age, uint32_t distance) {
    if (d->main.kind == STOP) d->alongside = (struct alongside){.on = true, .increased = d->main.increased};
    d->reminder = (struct reminder){.phase = OFF};
    d->main = (struct main_control){.kind = kind, .age = age, .distance = distance};
}

static void set_unprotected(struct crossing *c, uint16_t age, uint32_t distance) {
    if (c->kind != UNPROTECTED) c->age = age;
    c->kind = UNPROTECTED;
    c->distance = distance;
    c->shown = true;
}

static void set_protected(struct crossing *c, uint16_t age, uint32_t distance, bool shows) {
    if (c->kind == UNPROTECTED) return;
    c->shown = shows || (c->kind == PROTECTED && c->shown);
    if (c->kind != PROTECTED) c->age = age;
    c->kind = PROTECTED;
    c->distance = distance;
}

static bool asks(const struct window *w) { return w->waits == ONE || w->waits == NINE; }

static void count_main(struct desk *d) {
    if (asks(&d->window)) take_over(d, ANNOUNCEMENT, d->window.age, d->window.distance);
}

static void count_side(struct desk *d) {
    if (asks(&d->side)) set_unprotected(&d->crossing, d->side.age, d->side.distance);
}

static bool lit(const struct reminder *r) { return r->phase == FIRST || r->phase == SECOND; }

// The lowest cause that a miss gives, 0 for none.
static uint8_t advance(struct desk *d, uint32_t m, const struct settings *s) {
    older(&d->main.age);
    further(&d->main.distance, m);
    window_older(&d->window, m);
    window_older(&d->side, m);
    older(&d->alongside.age);
    if (d->alongside.age >= 200) d->alongside.on = false;
    older(&d->armed.age);
    if (d->armed.age >= 100) d->armed.armed = false;
    older(&d->reminder.age);
    if (!below(m, 500)) older(&d->reminder.fast);
    further(&d->reminder.distance, m);
    older(&d->crossing.age);
    further(&d->crossing.distance, m);
    if (d->crossing.distance >= 18000000) d->crossing = (struct crossing){.kind = ABSENT};
    else if (d->crossing.distance >= 350000) d->crossing.shown = true;
    older(&d->option.age);
    further(&d->option.distance, m);
    if (d->option.age >= 30) d->option.on = false;
    older(&d->limit.age);
    if (d->paired.on || d->first.code) pairs_older(d, m);

    bool main_missed = d->window.waits != NOTHING && d->window.left == 0;
    bool side_missed = d->side.waits != NOTHING && d->side.left == 0;
    bool reminder_missed = lit(&d->reminder) && d->reminder.age >= 50;
    if (reminder_missed) {
        d->reminder = (struct reminder){.phase = OFF};
    } else if (d->reminder.phase == DUE) {
        if (d->main.kind == STOP && d->main.distance >= 2000000 && s->functions & 4) d->reminder = (struct reminder){.phase = FIRST};
    } else if (d->reminder.phase == PRESSED) {
        uint16_t wait = d->main.increased ? s->x / 2 : s->x;
        if (d->reminder.fast >= wait || d->reminder.distance >= s->y * 10000u) d->reminder = (struct reminder){.phase = SECOND};
    }
    if (main_missed) {
        count_main(d);
        d->window = (struct window){.waits = NOTHING};
    }
    if (side_missed) {
        count_side(d);
        d->side = (struct window){.waits = NOTHING};
    }
    return main_missed ? 1 : side_missed ? 2 : reminder_missed ? 3 : 0;
}

static void change_mode(struct desk *d, bool bts) {
    *d = (struct desk){.bts = bts, .code = d->code, .cause = d->cause, .stood = d->stood, .brake_age = d->brake_age, .main = {.kind = bts ? CLEAR : START}};
}

// ---- buttons

static uint16_t waits_for(const struct window *w) {
    switch (w->waits) {
    case ONE: return 103;
    case TWO: return 8;
    case FIVE: return 2;
    case SIX: return 4;
    case SEVEN: return 16;
    case IN_ZONE: return w->age >= 10 ? 16 : 0;
    case NINE: return 96;
    case TEN: return 64;
    default: return 0;
    }
}

static void answer_by(struct desk *d, const struct window *w, uint16_t weight) {
    if (!asks(w)) return;
    switch (weight) {
    case 1: take_over(d, ANNOUNCEMENT, w->age, w->distance); break;
    case 2: take_over(d, PREANNOUNCEMENT, w->age, w->distance); break;
    case 4: take_over(d, CAUTION, w->age, w->distance); break;
    case 32: set_unprotected(&d->crossing, w->age, w->distance); break;
    case 64: set_limit(&d->limit, w->age, true); break;
    }
}

// Had a window use for the button of this weight.
static bool press(struct desk *d, uint16_t weight) {
    if (waits_for(&d->window) & weight) {
        answer_by(d, &d->window, weight);
        d->window = (struct window){.waits = NOTHING};
        return true;
    }
    if (waits_for(&d->side) & weight) {
        answer_by(d, &d->side, weight);
        d->side = (struct window){.waits = NOTHING};
        return true;
    }
    return false;
}

static void press_all(struct desk *d, uint16_t b, uint32_t m, const struct row *row, uint32_t top, uint8_t version) {
    for (uint16_t weight = 1; weight <= 16; weight *= 2)
        if (b & weight) press(d, weight);
    if (b & 32 && !press(d, 32) && d->option.on) {
        set_protected(&d->crossing, d->option.age, d->option.distance, true);
        d->option = (struct option){.on = false};
    }
    if (b & 64 && !press(d, 64)) take_off(d, m, row->last, top);
    if (b & 128 && !d->bts) {
        if (!lit(&d->reminder)) d->armed = (struct override){.armed = true};
        else if (d->reminder.age >= 1) d->reminder = (struct reminder){.phase = d->reminder.phase == FIRST ? PRESSED : OFF};
    }
    if (b & 256) {
        if (d->main.kind == STOP && !d->main.increased && d->main.age >= 1 && d->main.age <= 99) d->main.increased = true;
        else if (d->limit.on && (version != 3 || d->limit.answered) && row_speed(row, d->limit.age) <= row->last * 100u &&
                 stepped_final(&d->limit, row->last, top) < least(top, 16000))
            d->limit.steps = d->limit.steps < 8 ? d->limit.steps + 1 : 8;
    }
    if (b & 512 && d->limit.steps) d->limit.steps--;
}

// ---- beacon

static void open_window(struct window *w, uint8_t waits) { *w = (struct window){.waits = waits, .left = w->waits != NOTHING ? w->left : 30}; }

static void read_row(struct desk *d, uint8_t kind, uint8_t waits) {
    count_main(d);
    take_over(d, kind, 0, 0);
    open_window(&d->window, waits);
}

static void read_limit(struct desk *d, uint8_t code, const struct settings *s, uint8_t version) {
    count_side(d);
    if (version == 3 && d->first.code && d->first.distance <= s->distance * 10000u) {
        if (d->first.own && !d->limit.answered) d->limit = (struct limit){.on = false};
        set_paired(&d->paired, s->pairs[2 * (d->first.code == 11) + (code == 11)]);
        d->first = (struct first){.code = 0};
    } else {
        if (version == 3) d->first = (struct first){.code = code, .own = !d->limit.on};
        set_limit(&d->limit, 0, false);
    }
    open_window(&d->side, TEN);
}

// The cause that the reading gives, 0 for none.
static uint8_t read_beacon(struct desk *d, uint8_t code, const struct settings *s, uint8_t version) {
    uint8_t cause = 0;
    switch (code) {
    case 1:
        count_main(d);
        open_window(&d->window, ONE);
        break;
    case 2: read_row(d, CONDITIONAL_CLEAR, TWO); break;
    case 3:
        count_main(d);
        take_over(d, CLEAR, 0, 0);
        d->window = (struct window){.waits = NOTHING};
        if (s->functions & 1) d->option = (struct option){.on = true};
        break;
    case 4:
        if (s->functions & 1) set_protected(&d->crossing, 0, 0, false);
        break;
    case 5: read_row(d, PREANNOUNCEMENT, FIVE); break;
    case 6: read_row(d, CAUTION, SIX); break;
    case 7:
        count_main(d);
        if (d->main.kind == BEFORE_STOP && d->main.distance < 800000 && s->functions & 2) {
            take_over(d, ZONE, 0, 0);
            d->window = (struct window){.waits = IN_ZONE, .left = 40};
        } else {
            take_over(d, BEFORE_STOP, 0, 0);
            open_window(&d->window, SEVEN);
        }
        break;
    case 8:
        if (!d->armed.armed) cause = 4;
        count_main(d);
        d->reminder = (struct reminder){.phase = d->armed.armed ? DUE : OFF};
        d->main = (struct main_control){.kind = STOP};
        d->alongside = (struct alongside){.on = false};
        d->armed = (struct override){.armed = false};
        d->window = (struct window){.waits = NOTHING};
        break;
    case 9:
        count_side(d);
        open_window(&d->side, NINE);
        break;
    default: read_limit(d, code, s, version); break;
    }
    return cause;
}

static uint8_t take_beacon(struct desk *d, uint8_t code, const struct settings *s, uint8_t version) {
    bool side = code == 4 || code >= 9;
    bool is_read = code >= 1 && code <= 11 && code != d->code && (!d->bts || (side && s->functions & 8));
    d->code = code;
    return is_read ? read_beacon(d, code, s, version) : 0;
}

// ---- speed, brake and lamps

static uint32_t stop_speed(bool increased, uint32_t top) { return increased ? least(top, 10000) : 4000; }

static uint32_t main_speed(const struct main_control *c, const struct settings *s, uint32_t top) {
    switch (c->kind) {
    case START: return row_speed(&s->rows[START_ROW], c->age);
    case CONDITIONAL_CLEAR: return row_speed(&s->rows[CLEAR_ROW], c->age);
    case ANNOUNCEMENT: return row_speed(&s->rows[ANNOUNCEMENT_ROW], c->age);
    case PREANNOUNCEMENT: return row_speed(&s->rows[PREANNOUNCEMENT_ROW], c->age);
    case CAUTION: return row_speed(&s->rows[CAUTION_ROW], c->age);
    case BEFORE_STOP: return row_speed(&s->rows[BEFORE_STOP_ROW], c->age);
    case STOP: return stop_speed(c->increased, top);
    case ZONE: return 1000;
    default: return top;
    }
}

static uint32_t supervised(const struct desk *d, const struct settings *s, uint32_t top) {
    uint32_t speed = least(s->vmax * 100u, top);
    if (d->bts) speed = least(speed, s->bts * 100u);
    if (d->main.kind != CLEAR) speed = least(speed, main_speed(&d->main, s, top));
    if (d->alongside.on) speed = least(speed, stop_speed(d->alongside.increased, top));
    if (d->crossing.kind == PROTECTED) speed = least(speed, least(top, 15500));
    else if (d->crossing.kind == UNPROTECTED) speed = least(speed, row_speed(&s->rows[CROSSING_ROW], d->crossing.age));
    if (d->limit.on) speed = least(speed, limit_speed(&d->limit, &s->rows[LIMIT_ROW], top));
    if (d->paired.on)
        for (int i = 0; i < 4; i++)
            if (paired_on(&d->paired, i)) speed = least(speed, paired_speed(i, top));
    return speed;
}

static uint16_t lamps_of(const struct desk *d, bool limit_may_go, bool still) {
    uint16_t lamps = waits_for(&d->window) | waits_for(&d->side);
    if (d->option.on) lamps |= 32;
    if (limit_may_go) lamps |= 64;
    if (d->armed.armed || lit(&d->reminder)) lamps |= 128;
    if (d->main.kind == STOP && !d->main.increased && d->main.age <= 99) lamps |= 256;
    if (still && d->cause) lamps |= 1024;
    if (d->code == 12) lamps |= 2048;
    return lamps;
}

static uint8_t lowest(uint8_t a, uint8_t b) { return a == 0 ? b : b == 0 ? a : a < b ? a : b; }

uint8_t session_sample(struct session *session, uint16_t pulses, uint8_t beacon, uint16_t buttons, uint8_t mode, struct answer *answer) {
    struct settings *s = &session->settings;
    struct desk *d = &session->desk;
    uint8_t version = session->version;
#ifndef SETTINGS_AT_OPENING
    if (!version_known(version) || settings_fault(version, s)) return 8;
#endif
    if (!type_allowed(session->train, s->vmax) || !desk_inside(d)) return 8;
    if (beacon > 12 || buttons > 2047 || mode < 1 || mode > 2) return 9;
    uint32_t m = (uint32_t)pulses * s->tick;
    if (m > 100000) return 10;
    bool bts = mode == 2, still = at_standstill(d, pulses);
    if (bts != d->bts && !still) return 11;

    uint32_t top = type_speed(session->train) * 100u;
    uint8_t cause = 0;
    if (bts == d->bts) cause = advance(d, m, s);
    else change_mode(d, bts);
    if (buttons) press_all(d, buttons, m, &s->rows[LIMIT_ROW], top, version);
    cause = lowest(cause, take_beacon(d, beacon, s, version));
    if (d->crossing.kind == PROTECTED && below(m, 4000)) {
        d->crossing.kind = UNPROTECTED;
        d->crossing.age = 0;
        d->crossing.shown = true;
    }
    uint32_t speed = supervised(d, s, top);
    if (9 * (uint64_t)m > 25 * (uint64_t)(speed + 500)) cause = lowest(cause, 5);
    if (beacon == 12 && !d->bts) cause = lowest(cause, 6);
    bool braked = d->cause;
    if (cause) {
        if (!d->cause) d->cause = cause;
    } else if (still && buttons & 1024) {
        d->cause = 0;
    }
    if (braked && d->cause) older(&d->brake_age);
    else d->brake_age = 0;
    d->stood = stood_after(d, pulses);

    answer->speed = speed;
    answer->lamps = lamps_of(d, one_may_go(d, m, s->rows[LIMIT_ROW].last, top), still);
    answer->cause = d->cause;
    answer->icon = d->crossing.kind == UNPROTECTED ? 2 : d->crossing.kind == PROTECTED && d->crossing.shown ? 1 : 0;
    answer->limit = d->limit.on || d->paired.on;
    return 0;
}
