/* Rugulosca for C: the proved calculation behind a loading sheet.
 *
 * Every call answers 0 and leaves its values, or answers the number of its one refusal, 1 to 22, and leaves the refusal's
 * place. What it does not leave stays as it was: tables, room and values on a refusal, the place on an answer.
 *
 * No call has a condition on its numbers, lengths or bytes. What C owes: each pointer is valid for its length (for a
 * length of 0 it is still not null) and aligned for its type, and what is lent for writing overlaps nothing else lent.
 * Nothing is allocated, kept or locked: calls may run side by side on tables of their own.
 *
 * KM where the weight lies strictly between two rows is the lesser of the rows' two; at a row's own weight it is that
 * row's. The calls named straight_line read it on the straight line between the two, rounded down, as sheets did before:
 * for yards that compare. Nothing else differs, and theirs is never the lower GM.
 */
#ifndef RUGULOSCA_H
#define RUGULOSCA_H

#include <stddef.h>
#include <stdint.h>

#ifdef __cplusplus
extern "C" {
#endif

/* The most bytes of a file that is read. */
enum { RUGULOSCA_LONGEST_FILE = 32768 };

/* Room that is never too short: for a sheet, for the text of a file that is written, for the numbers of a file, for the
 * rows of a hull, and for the GMs of an inclining test. */
enum {
    RUGULOSCA_LONGEST_SHEET = 3173,
    RUGULOSCA_LONGEST_TEXT = 10202,
    RUGULOSCA_HALF_BREADTH_ROOM = 1701,
    RUGULOSCA_ITEM_ROOM = 128,
    RUGULOSCA_TANK_ROOM = 128,
    RUGULOSCA_ROW_ROOM = 133,
    RUGULOSCA_GM_ROOM = 12
};

/* The place of a number out of range (4), outside the reader: 0 to 4 a particular, and the others from these on. A hull
 * longer than 100,000 mm, all its particulars in range, has 4 at the spacing of its stations. Contents above capacity
 * (13) have the place of the contents. */
enum {
    RUGULOSCA_SPACING_AT = 2,
    RUGULOSCA_HALF_BREADTHS_AT = 5,
    RUGULOSCA_ITEMS_AT = 3000,
    RUGULOSCA_TANKS_AT = 4000
};

/* A tally of 32 slots, as its owner keeps it: five numbers a slot in `slots`, 0 where the slot is empty and any other
 * number where it is filled, then kg, x, y and z of its item; in `totals` the weight, the longitudinal and the vertical
 * moment of what is aboard; and its transverse moment. What an empty slot holds is not tried, counts for nothing and
 * stays. All zeros are the empty tally. */
enum {
    RUGULOSCA_SLOTS = 32,
    RUGULOSCA_SLOT_WIDTH = 5,
    RUGULOSCA_SLOT_ROOM = 160
};

/* The angles of a supply vessel's profile: 0 to 60 degrees by 5. */
enum { RUGULOSCA_ANGLES = 13 };

/* How the vessel lies, in `wholes[6]` of a condition. */
enum {
    RUGULOSCA_UNSTABLE = 0,
    RUGULOSCA_UPRIGHT = 1,
    RUGULOSCA_HEELED = 2,
    RUGULOSCA_BEYOND = 3
};

/* From a file's text to the sheet's lines. `count`: the bytes of the sheet. Only 14 is refused here: every other refusal
 * is the sheet's own E line. */
uint64_t rugulosca_report(const uint8_t *text, size_t text_length,
                          uint8_t *room, size_t room_length,
                          size_t *count, size_t *place);

uint64_t rugulosca_report_straight_line(const uint8_t *text, size_t text_length,
                                        uint8_t *room, size_t room_length,
                                        size_t *count, size_t *place);

/* Reads an offset file: numbers of up to nine digits, leading zeros counted, between spaces, tabs and line ends.
 * `summary`: the five particulars, the count of items, the count of tanks. */
uint64_t rugulosca_read(const uint8_t *text, size_t text_length,
                        uint64_t *half_breadths, size_t half_breadths_length,
                        int64_t *items, size_t items_length,
                        int64_t *tanks, size_t tanks_length,
                        uint64_t summary[7], size_t *place);

/* Writes an offset file. `count`: the bytes of its text. */
uint64_t rugulosca_write(const uint64_t particulars[5],
                         const uint64_t *half_breadths, size_t half_breadths_length,
                         const int64_t *items, size_t items_length,
                         const int64_t *tanks, size_t tanks_length,
                         uint8_t *room, size_t room_length,
                         size_t *count, size_t *place);

/* The rows of a hull, seven numbers each. `count`: how many rows. */
uint64_t rugulosca_rows(const uint64_t *half_breadths, size_t half_breadths_length,
                        const uint64_t particulars[5],
                        uint64_t *rows, size_t rows_length,
                        size_t *count, size_t *place);

/* The same rows by a plain second calculation, as a surveyor works them by hand: each station's area and height moment
 * first, and then along the length. All that it answers, refuses and leaves is what `rugulosca_rows` does; it takes
 * longer. */
uint64_t rugulosca_rows_by_sections(const uint64_t *half_breadths, size_t half_breadths_length,
                                    const uint64_t particulars[5],
                                    uint64_t *rows, size_t rows_length,
                                    size_t *count, size_t *place);

/* One row in metres, tonnes and square metres. */
uint64_t rugulosca_display(const uint64_t row[7], double figures[7], size_t *place);

/* The free surface of a tank that is not a rectangle, by its widths to port and to starboard of a line along the tank: mm,
 * 0 to 1,500, as many to port as to starboard, 3 to 11, at equal intervals of 50 to 1,000 mm; and the liquid's density, 1
 * to 1,500 kg/m3. `surface`: the inertia about the surface's own centre, mm4, and the moment, kg mm. The place of 7
 * (unequal tables, or a wrong count) is 0; that of 4 is the number's position from 0 in the widths to port, those to
 * starboard, the interval, the density. A condition takes no such surface: it keeps rectangles. */
uint64_t rugulosca_hopper_surface(const uint64_t *port, size_t port_length,
                                  const uint64_t *starboard, size_t starboard_length,
                                  uint64_t interval, uint64_t density,
                                  uint64_t surface[2], size_t *place);

/* The light ship by an inclining test. `test`: W, 1 to 17,600,000 kg, KM, 0 to 100,000 mm, and the free surface, 0 to
 * 10,240,000,000 kg mm, of the test, and the pendulum's length, 500 to 10,000 mm. `shifts`: 2 to 12, three numbers each:
 * weight, 1 to 20,000 kg, distance, 1 to 16,000 mm, and deflection, 1 to 2,000 mm. `off` and `on`: the items to take off
 * and to put on, 0 to 32 each, as a condition has them. `gms`: each shift's own GM, mm, rounded down; what stands beyond
 * the shifts stays. `light_ship`: the measured GM, mm, rounded down, which may be above KM, the light weight, kg, its
 * vertical moment, kg mm, and its KG, mm, rounded up and without an upper limit. Refused in this order: 7, not whole or a
 * wrong count, at 0 for `shifts`, 1 for `off` and 2 for `on`, and at 3 where `gms` holds fewer numbers than there are
 * shifts; 4 at the number's position from 0 in `test`, `shifts`, `off`, `on`; 20, a light weight of 0 or less, and 21, a
 * negative moment of it, both at 0. */
uint64_t rugulosca_light_ship(const uint64_t test[4],
                              const uint64_t *shifts, size_t shifts_length,
                              const int64_t *off, size_t off_length,
                              const int64_t *on, size_t on_length,
                              uint64_t *gms, size_t gms_length,
                              uint64_t light_ship[4], size_t *place);

/* The profile of a supply vessel against its alternative criterion. `kn`: KN, 0 to 20,000 mm, at each of the thirteen
 * angles; KM and KG, 0 to 100,000 mm each, KG with free surface and rounded up. `gz`: GZ at each angle, mm, of either
 * sign: KN less KG times the sine, that product rounded up. t is the angle of the peak, which is the first greatest GZ,
 * but 15 degrees if below and 30 if beyond. `wholes`: the peak's angle, degrees, and then 1 for a rule that is met and
 * 0 for one that is missed: the peak at 15 degrees or more, the area from 0 to t, the area from 30 to 40 degrees, GZ at
 * 30 degrees of 200 mm or more, GM of 150 mm or more. `signed_numbers`: GM, which is KM less KG, and GZ at 30 degrees,
 * mm, and the multiplied sums of GZ from 0 to t and from 30 to 40 degrees, in 24ths of 5 mm degrees. Refused in this
 * order: 7 at 0, not thirteen numbers in `kn`; 4 at the number's position from 0 in `kn`, KM, KG. */
uint64_t rugulosca_supply_profile(const uint64_t *kn, size_t kn_length,
                                  uint64_t km, uint64_t kg,
                                  int64_t gz[13], uint64_t wholes[6],
                                  int64_t signed_numbers[4], size_t *place);

/* The loading condition. `wholes`: weight, draft, KM, LCG, vertical moment, free surface, how it lies, 1 for a pass and 0
 * otherwise. `signed_numbers`: GM, transverse moment. `tangent` is left only where the vessel is heeled. A tank has free
 * surface where it is slack: above 0 and below 98 per cent of its capacity. */
uint64_t rugulosca_condition(const int64_t *items, size_t items_length,
                             const int64_t *tanks, size_t tanks_length,
                             const uint64_t *rows, size_t rows_length,
                             uint64_t wholes[8], int64_t signed_numbers[2],
                             double *tangent, size_t *place);

uint64_t rugulosca_condition_straight_line(const int64_t *items, size_t items_length,
                                           const int64_t *tanks, size_t tanks_length,
                                           const uint64_t *rows, size_t rows_length,
                                           uint64_t wholes[8], int64_t signed_numbers[2],
                                           double *tangent, size_t *place);

/* A step of a tally: loads an item (kg, x, y, z) into an empty slot, discharges a slot, shifts a slot's item to a new
 * place (x, y, z). An answer leaves the tally after it, each filled slot marked by 1, a freed one all zeros. A tally that
 * is handed in with a filled slot out of range, or with totals that are not its items', is refused first of all, with 22
 * at place 0. The place of 15 to 17 is the slot number, that of 4 the number's in `item`; in `to` it is 1 to 3. */
uint64_t rugulosca_load(int64_t slots[160], uint64_t totals[3], int64_t *transverse,
                        size_t slot, const int64_t item[4], size_t *place);

uint64_t rugulosca_discharge(int64_t slots[160], uint64_t totals[3], int64_t *transverse,
                             size_t slot, size_t *place);

uint64_t rugulosca_shift(int64_t slots[160], uint64_t totals[3], int64_t *transverse,
                         size_t slot, const int64_t to[3], size_t *place);

/* The loading condition of the items aboard, by the lesser KM: 22, and then all that `rugulosca_condition` tries, whose
 * values it leaves. */
uint64_t rugulosca_condition_aboard(const int64_t slots[160], const uint64_t totals[3], int64_t transverse,
                                    const int64_t *tanks, size_t tanks_length,
                                    const uint64_t *rows, size_t rows_length,
                                    uint64_t wholes[8], int64_t signed_numbers[2],
                                    double *tangent, size_t *place);

#ifdef __cplusplus
}
#endif

#endif
