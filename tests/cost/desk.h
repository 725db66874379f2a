// A session of documents 01 and 02 as a C programmer would keep it: one struct behind a pointer, changed where it stands.
#ifndef DESK_H
#define DESK_H
#include <stdbool.h>
#include <stdint.h>

enum { CLEAR_ROW, ANNOUNCEMENT_ROW, PREANNOUNCEMENT_ROW, CAUTION_ROW, BEFORE_STOP_ROW, CROSSING_ROW, LIMIT_ROW, START_ROW };

struct row {
    uint8_t initial, last, delay, drop;
};

struct settings {
    uint8_t vmax;
    uint16_t tick;
    uint8_t bts;
    struct row rows[8];
    uint8_t functions;
    uint16_t x, y;
    uint8_t pairs[4], distance; // speeds of 10-10, 10-11, 11-10, 11-11 in km/h; pair distance in metres
};

enum kind { CLEAR, START, CONDITIONAL_CLEAR, ANNOUNCEMENT, PREANNOUNCEMENT, CAUTION, BEFORE_STOP, STOP, ZONE };
enum waits { NOTHING, ONE, TWO, FIVE, SIX, SEVEN, IN_ZONE, NINE, TEN };
enum phase { OFF, DUE, FIRST, PRESSED, SECOND };
enum crossing_kind { ABSENT, PROTECTED, UNPROTECTED };

struct main_control {
    uint8_t kind;
    bool increased;
    uint16_t age;
    uint32_t distance;
};

struct window {
    uint8_t waits;
    uint16_t left, age;
    uint32_t distance;
};

struct alongside {
    bool on, increased;
    uint16_t age;
};

struct override {
    bool armed;
    uint16_t age;
};

struct reminder {
    uint8_t phase;
    uint16_t age, fast;
    uint32_t distance;
};

struct crossing {
    uint8_t kind;
    bool shown;
    uint16_t age;
    uint32_t distance;
};

struct option {
    bool on;
    uint16_t age;
    uint32_t distance;
};

struct limit {
    bool on, answered; // answered: last set by an answer to a 1 or a 9
    uint8_t steps;
    uint16_t age;
};

struct paired {
    uint8_t on; // a bit for each of 30, 40, 50, 70 km/h
    uint16_t age[4];
};

struct first {
    uint8_t code; // 10 or 11, 0 where no first stands
    bool own;     // no single limit stood as it was read
    uint32_t distance;
};

struct desk {
    bool bts;
    uint8_t code, cause;
    uint16_t stood; // accepted samples running without pulses
    uint16_t brake_age; // samples since the brake came on
    struct main_control main;
    struct window window, side;
    struct alongside alongside;
    struct override armed;
    struct reminder reminder;
    struct crossing crossing;
    struct option option;
    struct limit limit;
    struct paired paired;
    struct first first;
};

struct session {
    struct settings settings;
    uint8_t version, train;
    struct desk desk;
};

struct answer {
    uint32_t speed;
    uint16_t lamps;
    uint8_t cause, icon;
    bool limit;
};

// The place of the first setting out of range beside this version of 1..3, 0 where there is none.
uint8_t settings_fault(uint8_t version, const struct settings *s);

// The refusal of an opening, 0 where there is none.
uint8_t session_open(struct session *s, uint8_t version, const struct settings *settings, uint8_t train);

// One sample: the number that refuses it, and then nothing is changed; or 0.
uint8_t session_sample(struct session *s, uint16_t pulses, uint8_t beacon, uint16_t buttons, uint8_t mode, struct answer *answer);
#endif
