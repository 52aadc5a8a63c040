/* How much stack each call needs: a line for each, its name and the bytes. The largest file is on standard input.
 *
 * Counted from the caller's stack pointer at the call down to the deepest word that is written: the return address, the
 * call's own frame, and those of all that it calls. Arguments that C passes on the stack lie above, in the caller's
 * frame. Each call is made with several files, rooms, intervals, pendulums and KGs, some of them refused, and the
 * deepest counts. */
#include <assert.h>
#include <stdio.h>
#include <stdlib.h>
#include <string.h>

#include "../include/rugulosca.h"

enum { PAINTED_BYTES = 256 * 1024, LAST_SLOT = RUGULOSCA_SLOTS - 1, ITEM_WIDTH = 4, WIDTHS = 11, SHIFT_WIDTH = 3 };

/* What is lent. The reader fills the tables that are lent to the calls after it, and the rows' calls the rows. */
static uint8_t text[RUGULOSCA_LONGEST_FILE + 1], room[RUGULOSCA_LONGEST_TEXT];
static size_t text_length, room_length, count, place;
static uint64_t summary[7], half_breadths[RUGULOSCA_HALF_BREADTH_ROOM], rows[RUGULOSCA_ROW_ROOM], wholes[8];
static int64_t items[RUGULOSCA_ITEM_ROOM], tanks[RUGULOSCA_TANK_ROOM], signed_numbers[2];
static double figures[7], tangent;

/* The largest hopper tank, its interval in range or not. */
static const uint64_t port[WIDTHS] = {900, 1100, 1250, 1350, 1400, 1400, 1350, 1250, 1100, 900, 700};
static const uint64_t starboard[WIDTHS] = {1500, 1500, 1500, 1500, 1500, 1500, 1500, 1500, 1500, 1500, 1500};
static uint64_t interval, surface[2];

/* The largest inclining test, with the file's items to take off and to put on, its pendulum in range or not. */
static uint64_t test[4] = {17600000, 9000, 1250000000, 0}, gms[RUGULOSCA_GM_ROOM], light_ship[4];
static uint64_t shifts[SHIFT_WIDTH * RUGULOSCA_GM_ROOM];

/* A supply vessel whose peak stands beyond 30 degrees, its KG in range or not. */
static const uint64_t kn[RUGULOSCA_ANGLES] = {0,     3034,  5805,  8312,  10555, 12534, 14250,
                                              15701, 16888, 17812, 18472, 18868, 19000};
static uint64_t kg, profile_wholes[6];
static int64_t gz[RUGULOSCA_ANGLES], profile_numbers[4];

/* A tally that waits for the last item, one that has it, and both as they were before a step. */
static struct tally {
    int64_t slots[RUGULOSCA_SLOT_ROOM];
    uint64_t totals[3];
    int64_t transverse;
} waiting, laden, waiting_before, laden_before;

/* Called in a call's stead: the caller's stack pointer. Between it and this frame are two words, the return address and
 * the caller's frame pointer. */
static uint64_t stack_pointer(void) {
    return (uint64_t)__builtin_frame_address(0) + 2 * sizeof(uint64_t);
}

/* A call with what is lent to it, from a frame that is the same whether it is made or the stack pointer asked for, and
 * so large that the call begins below the words that `paint` needs for itself. */
#define CALL(name, ...)                                                                                                \
    static uint64_t call_##name(int made) {                                                                            \
        __typeof__(&rugulosca_##name) volatile call = made ? (void *)rugulosca_##name : (void *)stack_pointer;         \
        volatile uint64_t refusal[64];                                                                                 \
        refusal[0] = call(__VA_ARGS__);                                                                                \
        return refusal[0];                                                                                             \
    }
#define HULL half_breadths, RUGULOSCA_HALF_BREADTH_ROOM
#define ITEMS items, RUGULOSCA_ITEM_ROOM
#define LISTS ITEMS, tanks, RUGULOSCA_TANK_ROOM
#define ROWS rows, RUGULOSCA_ROW_ROOM
#define CONDITION wholes, signed_numbers, &tangent, &place
#define SHIFTS shifts, sizeof shifts / sizeof shifts[0]
CALL(report, text, text_length, room, room_length, &count, &place)
CALL(report_straight_line, text, text_length, room, room_length, &count, &place)
CALL(read, text, text_length, HULL, LISTS, summary, &place)
CALL(write, summary, HULL, LISTS, room, room_length, &count, &place)
CALL(rows, HULL, summary, ROWS, &count, &place)
CALL(rows_by_sections, HULL, summary, ROWS, &count, &place)
CALL(display, rows, figures, &place)
CALL(condition, LISTS, ROWS, CONDITION)
CALL(condition_straight_line, LISTS, ROWS, CONDITION)
CALL(load, waiting.slots, waiting.totals, &waiting.transverse, LAST_SLOT, items + ITEM_WIDTH * LAST_SLOT, &place)
CALL(discharge, laden.slots, laden.totals, &laden.transverse, LAST_SLOT, &place)
CALL(shift, laden.slots, laden.totals, &laden.transverse, LAST_SLOT, items + 1, &place)
CALL(condition_aboard, laden.slots, laden.totals, laden.transverse, tanks, RUGULOSCA_TANK_ROOM, ROWS, CONDITION)
CALL(hopper_surface, port, WIDTHS, starboard, WIDTHS, interval, 1500, surface, &place)
CALL(light_ship, test, SHIFTS, ITEMS, ITEMS, gms, RUGULOSCA_GM_ROOM, light_ship, &place)
CALL(supply_profile, kn, RUGULOSCA_ANGLES, 19250, kg, gz, profile_wholes, profile_numbers, &place)

#define NAMED(name) {"rugulosca_" #name, call_##name}
static const struct call {
    const char *name;
    uint64_t (*make)(int made);
} calls[] = {
    NAMED(report), NAMED(report_straight_line), NAMED(read), NAMED(write), NAMED(rows), NAMED(rows_by_sections),
    NAMED(display), NAMED(condition), NAMED(condition_straight_line), NAMED(load), NAMED(discharge), NAMED(shift),
    NAMED(condition_aboard), NAMED(hopper_surface), NAMED(light_ship), NAMED(supply_profile),
};

/* Paints what lies below the caller's frame, from `painted` up. Each word gets its own address by a mask, so that what
 * a call writes there, or copies from elsewhere, does not pass for paint. */
static uintptr_t painted;
__attribute__((noinline)) static void paint(uintptr_t mask) {
    volatile uintptr_t area[PAINTED_BYTES / sizeof(uintptr_t)];
    painted = (uintptr_t)area;
    for (size_t i = 0; i < sizeof area / sizeof area[0]; i++) {
        area[i] = (uintptr_t)&area[i] ^ mask;
    }
}

/* The bytes that a call needs with the file and the room of now, to which it may owe an answer. */
static size_t need_of(const struct call *call, int answered, uintptr_t mask) {
    uintptr_t top = call->make(0);
    waiting = waiting_before;
    laden = laden_before;
    paint(mask);
    uint64_t refusal = call->make(1);
    uintptr_t deepest = painted;
    while (*(volatile uintptr_t *)deepest == (deepest ^ mask)) {
        deepest += sizeof deepest;
    }
    assert(top <= painted + PAINTED_BYTES);
    assert(refusal == 0 || !answered);
    if (deepest == painted) {
        fprintf(stderr, "%s used up the paint of %d bytes\n", call->name, PAINTED_BYTES);
        exit(1);
    }
    return top - deepest;
}

int main(void) {
    memset(text, ' ', sizeof text);
    size_t largest = fread(text, 1, sizeof text, stdin);
    /* the file; with blank space after it, as long as a file may be and a byte longer; cut in the middle; nothing */
    const size_t texts[] = {largest, RUGULOSCA_LONGEST_FILE, RUGULOSCA_LONGEST_FILE + 1, largest / 2, 0};
    /* for any text; a byte less, and less than for any sheet, where a text is made apart and copied if it fits; none */
    const size_t rooms[] = {RUGULOSCA_LONGEST_TEXT, RUGULOSCA_LONGEST_TEXT - 1, RUGULOSCA_LONGEST_SHEET - 1, 0};
    text_length = largest;
    call_read(1);
    for (size_t i = 0; i < RUGULOSCA_GM_ROOM; i++) {
        shifts[SHIFT_WIDTH * i] = 20000;
        shifts[SHIFT_WIDTH * i + 1] = 16000;
        shifts[SHIFT_WIDTH * i + 2] = 100 + i;
    }
    for (size_t slot = 0; slot < RUGULOSCA_SLOTS; slot++) {
        waiting_before = laden_before;
        rugulosca_load(laden_before.slots, laden_before.totals, &laden_before.transverse, slot,
                       items + ITEM_WIDTH * slot, &place);
    }
    for (size_t i = 0; i < sizeof calls / sizeof calls[0]; i++) {
        size_t most = 0;
        for (size_t t = 0; t < sizeof texts / sizeof texts[0]; t++) {
            for (size_t r = 0; r < sizeof rooms / sizeof rooms[0]; r++) {
                text_length = texts[t];
                room_length = rooms[r];
                /* refused with the rooms that are too short */
                interval = r == 0 ? 1000 : 0;
                test[3] = r == 0 ? 10000 : 0;
                kg = r == 0 ? 18000 : 100001;
                /* the whole file is answered where there is room, and a second time any call takes the same */
                size_t need = need_of(&calls[i], t == 0 && r == 0, 0);
                assert(need == need_of(&calls[i], t == 0 && r == 0, UINTPTR_MAX));
                most = need > most ? need : most;
            }
        }
        printf("%-33s %6zu\n", calls[i].name, most);
    }
    return 0;
}
