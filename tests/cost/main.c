// The program crates/cost in C: the same input, the same checksum.
#include "desk.h"
#include <stdio.h>

static uint8_t input[65536];

static uint16_t word(const uint8_t *p) { return (uint16_t)(p[0] << 8 | p[1]); }

static uint8_t read_card(const uint8_t *p, struct settings *s) {
    uint8_t version = p[2];
    if (version == 0) return 2;
    if (version > 3) return 3;
    if (word(p) != (version == 1 ? 39 : version == 2 ? 44 : 49)) return 4;
    s->vmax = p[3];
    s->tick = word(p + 4);
    s->bts = p[6];
    for (int i = 0; i < 8; i++) s->rows[i] = (struct row){p[7 + 4 * i], p[8 + 4 * i], p[9 + 4 * i], p[10 + 4 * i]};
    s->functions = version == 1 ? 0 : p[39];
    bool reminder = s->functions & 4;
    s->x = reminder ? word(p + 40) : 0;
    s->y = reminder ? word(p + 42) : 0;
    for (int i = 0; i < 4; i++) s->pairs[i] = version == 3 ? p[44 + i] : 0;
    s->distance = version == 3 ? p[48] : 0;
    return settings_fault(version, s) ? 5 : 0;
}

int main(void) {
    struct settings settings;
    struct session opened, session;
    uint32_t speeds = 0, rest = 0;
    fread(input, 1, sizeof input, stdin);
    uint8_t number = read_card(input, &settings);
    if (!number) number = session_open(&opened, input[2], &settings, input[56]);
    if (number) {
        printf("refused %d\n", number);
        return 0;
    }
    uint32_t length = (uint32_t)word(input + 51) << 16 | word(input + 53);
    uint16_t samples = (uint16_t)(length < 6 ? 0 : (length - 6) / 6), place = 0;
    session = opened;
    for (uint32_t left = samples * (uint32_t)word(input + 49); left; left--) {
        const uint8_t *p = input + 57 + 6 * place;
        struct answer a;
        number = session_sample(&session, word(p), p[2], word(p + 3), p[5], &a);
        if (number) {
            speeds = speeds * 31 + number;
            rest = rest * 31 + 134217728;
        } else {
            speeds = speeds * 31 + a.speed;
            rest = rest * 31 + (a.lamps | (uint32_t)a.cause << 16 | (uint32_t)a.icon << 24 | (uint32_t)a.limit << 26);
        }
        if (++place == samples) {
            place = 0;
            session = opened;
        }
    }
    printf("%08x%08x\n", speeds, rest);
    return 0;
}
