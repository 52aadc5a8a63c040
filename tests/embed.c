/* The smallest program around the library: the sheet of the file on standard input, on standard output. Before it, on a
 * barge of the program's own, its rows by both engines, a tally, which is what a crane panel does for a lift, a load by
 * both readings of KM, what is refused, with its place, the longest text that the writer writes, the free surface of a
 * hopper tank, the light ship of an inclining test, and the profile of a supply vessel. */
#include <assert.h>
#include <stdio.h>
#include <string.h>

#include "../include/rugulosca.h"

/* A box of 10 m by 4 m: draft, displacement, LCB, KB, BM, KM and waterplane area at three drafts. */
static const uint64_t rows[21] = {
    1000, 40000, 5000, 500,  1333, 1833, 40000000,
    1500, 60000, 5000, 750,  888,  1638, 40000000,
    2000, 80000, 5000, 1000, 666,  1666, 40000000,
};

/* Whether the call that is given makes these rows, from the half-breadths of five stations at five waterlines. */
static int makes_rows(uint64_t (*rows_of)(const uint64_t *, size_t, const uint64_t *, uint64_t *, size_t, size_t *,
                                          size_t *)) {
    const uint64_t particulars[5] = {4, 4, 2500, 500, 1000};
    uint64_t half_breadths[25];
    uint64_t made[RUGULOSCA_ROW_ROOM];
    size_t count = 0;
    size_t place;
    for (size_t i = 0; i < 25; i++) {
        half_breadths[i] = 2000;
    }
    return rows_of(half_breadths, 25, particulars, made, RUGULOSCA_ROW_ROOM, &count, &place) == 0 && count == 3 &&
           memcmp(made, rows, sizeof rows) == 0;
}

static const int64_t no_tanks[1] = {0};

/* A tally as its owner keeps it. */
struct tally {
    int64_t slots[RUGULOSCA_SLOT_ROOM];
    uint64_t totals[3];
    int64_t transverse;
};

static int64_t gm_of(const struct tally *tally) {
    uint64_t wholes[8];
    int64_t signed_numbers[2];
    double tangent;
    size_t place;
    uint64_t refusal = rugulosca_condition_aboard(tally->slots, tally->totals, tally->transverse, no_tanks, 0, rows, 21,
                                                  wholes, signed_numbers, &tangent, &place);
    assert(refusal == 0);
    return signed_numbers[0];
}

static void lift(void) {
    struct tally tally = {0};
    const int64_t hull[4] = {60000, 5000, 0, 1000};
    const int64_t crate[4] = {20000, 5000, 0, 3000};
    size_t place = 0;
    uint64_t refusal = rugulosca_load(tally.slots, tally.totals, &tally.transverse, 0, hull, &place);
    assert(refusal == 0 && gm_of(&tally) == 638);
    refusal = rugulosca_load(tally.slots, tally.totals, &tally.transverse, 31, crate, &place);
    assert(refusal == 0 && tally.totals[0] == 80000 && gm_of(&tally) == 166);
    refusal = rugulosca_load(tally.slots, tally.totals, &tally.transverse, 31, crate, &place);
    assert(refusal == 16 && place == 31 && tally.totals[0] == 80000);
    refusal = rugulosca_discharge(tally.slots, tally.totals, &tally.transverse, 31, &place);
    assert(refusal == 0 && tally.totals[0] == 60000 && gm_of(&tally) == 638);
}

/* GM of 50 t, between the first two rows, by the call that is given. */
static int64_t gm_by(uint64_t (*condition)(const int64_t *, size_t, const int64_t *, size_t, const uint64_t *, size_t,
                                           uint64_t *, int64_t *, double *, size_t *)) {
    const int64_t cargo[4] = {50000, 5000, 0, 1000};
    uint64_t wholes[8];
    int64_t signed_numbers[2];
    double tangent;
    size_t place;
    uint64_t refusal = condition(cargo, 4, no_tanks, 0, rows, 21, wholes, signed_numbers, &tangent, &place);
    assert(refusal == 0);
    return signed_numbers[0];
}

/* The place at which the condition of one item and one tank is refused with this number. */
static size_t refused_at(uint64_t number, const int64_t item[4], const int64_t tank[8]) {
    uint64_t wholes[8];
    int64_t signed_numbers[2];
    double tangent;
    size_t place = 0;
    uint64_t refusal = rugulosca_condition(item, 4, tank, 8, rows, 21, wholes, signed_numbers, &tangent, &place);
    assert(refusal == number);
    return place;
}

static void refusals(void) {
    const int64_t item[4] = {50000, 5000, 0, 1000};
    const int64_t item_too_high[4] = {50000, 5000, 0, 30001};
    const int64_t tank[8] = {5000, 8000, 5000, 400, 300, 2000, 2000, 1000};
    const int64_t tank_too_wide[8] = {5000, 8000, 5000, 400, 300, 2000, 8001, 1000};
    const int64_t tank_too_full[8] = {8001, 8000, 5000, 400, 300, 2000, 2000, 1000};
    /* 80 intervals of 1,251 mm are more than 100,000 mm */
    const uint64_t too_long[5] = {80, 4, 1251, 500, 1000};
    const uint64_t half_breadths[5] = {2000, 2000, 2000, 2000, 2000};
    uint64_t made[RUGULOSCA_ROW_ROOM];
    size_t count;
    size_t place = 0;
    uint64_t refusal = rugulosca_rows(half_breadths, 5, too_long, made, RUGULOSCA_ROW_ROOM, &count, &place);
    assert(refusal == 4 && place == RUGULOSCA_SPACING_AT);
    assert(refused_at(4, item_too_high, tank) == RUGULOSCA_ITEMS_AT + 3);
    assert(refused_at(4, item, tank_too_wide) == RUGULOSCA_TANKS_AT + 6);
    assert(refused_at(13, item, tank_too_full) == RUGULOSCA_TANKS_AT);
}

/* The bytes of the longest file that can be written: 80 and 20 intervals, 32 items and 16 tanks, every number at its
 * longest. */
static size_t longest_text(void) {
    const uint64_t particulars[5] = {80, 20, 1250, 500, 1100};
    const int64_t item[4] = {300000, 100000, -10000, 30000};
    const int64_t tank[8] = {400000, 400000, 100000, -10000, 30000, 10000, 8000, 1500};
    static uint64_t half_breadths[RUGULOSCA_HALF_BREADTH_ROOM];
    int64_t items[RUGULOSCA_ITEM_ROOM];
    int64_t tanks[RUGULOSCA_TANK_ROOM];
    static uint8_t room[RUGULOSCA_LONGEST_TEXT];
    size_t count = 0;
    size_t place = 0;
    for (size_t i = 0; i < RUGULOSCA_HALF_BREADTH_ROOM; i++) {
        half_breadths[i] = 8000;
    }
    for (size_t i = 0; i < RUGULOSCA_ITEM_ROOM; i++) {
        items[i] = item[i % 4];
    }
    for (size_t i = 0; i < RUGULOSCA_TANK_ROOM; i++) {
        tanks[i] = tank[i % 8];
    }
    uint64_t refusal = rugulosca_write(particulars, half_breadths, RUGULOSCA_HALF_BREADTH_ROOM, items,
                                       RUGULOSCA_ITEM_ROOM, tanks, RUGULOSCA_TANK_ROOM, room, sizeof room, &count,
                                       &place);
    assert(refusal == 0);
    return count;
}

/* A surface of 10 intervals of 500 mm, 1,200 mm wide all along and 1,000 mm of that to port: its inertia is that of a
 * rectangle, 10·500·1,200³/12, wherever the middle line lies. A width that is too large is refused and leaves it. */
static void hopper(void) {
    uint64_t port[11];
    uint64_t starboard[11];
    uint64_t surface[2] = {0, 0};
    size_t place = 0;
    for (size_t i = 0; i < 11; i++) {
        port[i] = 1000;
        starboard[i] = 200;
    }
    uint64_t refusal = rugulosca_hopper_surface(port, 11, starboard, 11, 500, 1025, surface, &place);
    assert(refusal == 0 && surface[0] == 720000000000 && surface[1] == 738000 && place == 0);
    starboard[2] = 1501;
    refusal = rugulosca_hopper_surface(port, 11, starboard, 11, 500, 1025, surface, &place);
    assert(refusal == 4 && place == 11 + 2 && surface[0] == 720000000000 && surface[1] == 738000);
}

/* A vessel of 100 t with KM 3 m: 1 t over 10 m deflects a pendulum of 1 m by 100 mm, and then by 125 mm, so that GM is
 * 20,000,000·1,000/(100,000·225) mm. The gear of the test, 2.5 t at 4 m, is to take off, and an anchor of 500 kg at 2 m is to put
 * on. What leaves no light ship, room for too few GMs and an item that is too high are refused and leave all. */
static void inclining(void) {
    const uint64_t test[4] = {100000, 3000, 0, 1000};
    const uint64_t shifts[6] = {1000, 10000, 100, 1000, 10000, 125};
    int64_t off[4] = {2500, 5000, 0, 4000};
    const int64_t on[4] = {500, 9500, 0, 2000};
    uint64_t gms[RUGULOSCA_GM_ROOM] = {0, 0, 77};
    uint64_t light_ship[4] = {0, 0, 0, 0};
    size_t place = 0;
    uint64_t refusal =
        rugulosca_light_ship(test, shifts, 6, off, 4, on, 4, gms, RUGULOSCA_GM_ROOM, light_ship, &place);
    assert(refusal == 0 && gms[0] == 1000 && gms[1] == 800 && gms[2] == 77 && place == 0);
    assert(light_ship[0] == 888 && light_ship[1] == 98000 && light_ship[2] == 202200000 && light_ship[3] == 2064);
    off[0] = 100500;
    gms[0] = 0;
    refusal = rugulosca_light_ship(test, shifts, 6, off, 4, on, 4, gms, RUGULOSCA_GM_ROOM, light_ship, &place);
    assert(refusal == 20 && place == 0 && gms[0] == 0 && light_ship[0] == 888 && light_ship[1] == 98000);
    off[3] = 30001;
    refusal = rugulosca_light_ship(test, shifts, 6, off, 4, on, 4, gms, 1, light_ship, &place);
    assert(refusal == 7 && place == 3);
    refusal = rugulosca_light_ship(test, shifts, 6, off, 4, on, 4, gms, 2, light_ship, &place);
    assert(refusal == 4 && place == 4 + 6 + 3 && gms[0] == 0);
}

/* A supply vessel with KG 5 m, whose KN at each angle is KG times the sine, rounded up, and a hump of levers above
 * that: the peak is 420 mm at 25 degrees, the sum to it 32·120 + 17·230 + 27·330 + 27·400 + 9·420, and that from 30 to
 * 40 degrees 8·400 + 32·350 + 8·280. With KG 751 mm higher no rule but the peak's is met. A number too few, a KN and a
 * KM that are too great, and the KM alone are refused and leave all. */
static void profile(void) {
    uint64_t kn[RUGULOSCA_ANGLES] = {0, 556, 1099, 1625, 2111, 2534, 2900, 3218, 3494, 3736, 3941, 4106, 4241};
    const int64_t levers[RUGULOSCA_ANGLES] = {0, 120, 230, 330, 400, 420, 400, 350, 280, 200, 110, 10, -90};
    const uint64_t peak_and_rules[6] = {25, 1, 1, 1, 1, 1};
    const int64_t gm_gz_and_sums[4] = {900, 400, 31240, 16640};
    int64_t gz[RUGULOSCA_ANGLES];
    uint64_t wholes[6];
    int64_t signed_numbers[4];
    size_t place = 77;
    uint64_t refusal =
        rugulosca_supply_profile(kn, RUGULOSCA_ANGLES, 5900, 5751, gz, wholes, signed_numbers, &place);
    assert(refusal == 0 && wholes[0] == 20 && wholes[1] == 1 && signed_numbers[0] == 149 && signed_numbers[1] == 24);
    assert(wholes[2] == 0 && wholes[3] == 0 && wholes[4] == 0 && wholes[5] == 0 && gz[12] == -740);
    refusal = rugulosca_supply_profile(kn, RUGULOSCA_ANGLES, 5900, 5000, gz, wholes, signed_numbers, &place);
    assert(refusal == 0 && place == 77);
    refusal = rugulosca_supply_profile(kn, RUGULOSCA_ANGLES - 1, 5900, 5000, gz, wholes, signed_numbers, &place);
    assert(refusal == 7 && place == 0);
    kn[12] = 20001;
    refusal = rugulosca_supply_profile(kn, RUGULOSCA_ANGLES, 100001, 5000, gz, wholes, signed_numbers, &place);
    assert(refusal == 4 && place == 12);
    kn[12] = 20000;
    refusal = rugulosca_supply_profile(kn, RUGULOSCA_ANGLES, 100001, 5000, gz, wholes, signed_numbers, &place);
    assert(refusal == 4 && place == RUGULOSCA_ANGLES);
    assert(memcmp(gz, levers, sizeof gz) == 0 && memcmp(wholes, peak_and_rules, sizeof wholes) == 0);
    assert(memcmp(signed_numbers, gm_gz_and_sums, sizeof signed_numbers) == 0);
}

int main(void) {
    /* a byte more than a file may have, so that a longer one is refused */
    static uint8_t text[RUGULOSCA_LONGEST_FILE + 1];
    uint8_t sheet[RUGULOSCA_LONGEST_SHEET];
    size_t count = 0;
    size_t place = 0;
    size_t read;
    assert(makes_rows(rugulosca_rows));
    assert(makes_rows(rugulosca_rows_by_sections));
    lift();
    assert(gm_by(rugulosca_condition) == 638);
    assert(gm_by(rugulosca_condition_straight_line) == 735);
    refusals();
    assert(longest_text() == RUGULOSCA_LONGEST_TEXT);
    hopper();
    inclining();
    profile();
    read = fread(text, 1, sizeof text, stdin);
    /* room for the longest sheet is never too short, so this is never refused */
    rugulosca_report(text, read, sheet, sizeof sheet, &count, &place);
    return fwrite(sheet, 1, count, stdout) == count ? 0 : 1;
}
