/* How often the calls that make rows read each half-breadth of the file on standard input: a line for each call and
 * hull. Fails unless `rugulosca_rows`, where it answers, reads each of them once.
 *
 * The half-breadths stand in pages that may not be read. Each instruction that reads one faults, is counted at the
 * number it asked for, and is let through by a single step, after which the pages are shut again. An instruction that
 * read two numbers at once would leave the second of them unread in the counts. */
#define _GNU_SOURCE
#include <assert.h>
#include <inttypes.h>
#include <signal.h>
#include <stdio.h>
#include <stdlib.h>
#include <string.h>
#include <sys/mman.h>
#include <ucontext.h>

#include "../include/rugulosca.h"

enum { TRAP_FLAG = 0x100, TIMES = 1024, OUT_OF_RANGE = 8001 };

static uint64_t *half_breadths, summary[7], rows[RUGULOSCA_ROW_ROOM];
static size_t bytes = RUGULOSCA_HALF_BREADTH_ROOM * sizeof(uint64_t);
static unsigned reads[RUGULOSCA_HALF_BREADTH_ROOM];

static void shut(void) {
    assert(mprotect(half_breadths, bytes, PROT_NONE) == 0);
}

static void open_up(void) {
    assert(mprotect(half_breadths, bytes, PROT_READ | PROT_WRITE) == 0);
}

static void on_fault(int signal, siginfo_t *fault, void *context) {
    size_t at = ((uintptr_t)fault->si_addr - (uintptr_t)half_breadths) / sizeof(uint64_t);
    (void)signal;
    if (at >= RUGULOSCA_HALF_BREADTH_ROOM) abort();
    reads[at]++;
    open_up();
    ((ucontext_t *)context)->uc_mcontext.gregs[REG_EFL] |= TRAP_FLAG;
}

static void on_step(int signal, siginfo_t *step, void *context) {
    (void)signal, (void)step;
    shut();
    ((ucontext_t *)context)->uc_mcontext.gregs[REG_EFL] &= ~TRAP_FLAG;
}

static void handle(int signal, void (*handler)(int, siginfo_t *, void *)) {
    struct sigaction action = {.sa_sigaction = handler, .sa_flags = SA_SIGINFO};
    assert(sigaction(signal, &action, NULL) == 0);
}

/* Makes the rows and says how many half-breadths were read how often; answers whether each was read once. */
static int count(const char *name, __typeof__(&rugulosca_rows) make, const char *hull, size_t length) {
    size_t made = 0, place = 0, total = 0;
    static unsigned half_breadths_read[TIMES];
    uint64_t refusal;
    memset(reads, 0, sizeof reads);
    memset(half_breadths_read, 0, sizeof half_breadths_read);
    shut();
    refusal = make(half_breadths, length, summary, rows, RUGULOSCA_ROW_ROOM, &made, &place);
    open_up();
    printf("%s, %s: ", name, hull);
    if (refusal == 0) printf("%zu rows", made);
    else printf("refused with %" PRIu64 " at %zu", refusal, place);
    for (size_t i = 0; i < length; i++) {
        assert(reads[i] < TIMES);
        half_breadths_read[reads[i]]++;
        total += reads[i];
    }
    printf("; %zu half-breadths, %zu reads:", length, total);
    for (size_t times = 0; times < TIMES; times++)
        if (half_breadths_read[times]) printf(" %u read %zu times", half_breadths_read[times], times);
    printf("\n");
    return half_breadths_read[1] == length;
}

int main(void) {
    static uint8_t text[RUGULOSCA_LONGEST_FILE];
    static int64_t items[RUGULOSCA_ITEM_ROOM], tanks[RUGULOSCA_TANK_ROOM];
    size_t text_length = fread(text, 1, sizeof text, stdin), place, length;
    int each_once;
    half_breadths = mmap(NULL, bytes, PROT_READ | PROT_WRITE, MAP_PRIVATE | MAP_ANONYMOUS, -1, 0);
    assert(half_breadths != MAP_FAILED);
    assert(rugulosca_read(text, text_length, half_breadths, RUGULOSCA_HALF_BREADTH_ROOM, items, RUGULOSCA_ITEM_ROOM, tanks,
                          RUGULOSCA_TANK_ROOM, summary, &place) == 0);
    length = (summary[0] + 1) * (summary[1] + 1);
    handle(SIGSEGV, on_fault);
    handle(SIGTRAP, on_step);
    each_once = count("rugulosca_rows", rugulosca_rows, "the file's hull", length);
    count("rugulosca_rows_by_sections", rugulosca_rows_by_sections, "the file's hull", length);
    half_breadths[length - 1] = OUT_OF_RANGE;
    count("rugulosca_rows", rugulosca_rows, "its last half-breadth out of range", length);
    half_breadths[summary[1]] = OUT_OF_RANGE;
    count("rugulosca_rows", rugulosca_rows, "the top of its first station too", length);
    if (!each_once) printf("rugulosca_rows does not read each half-breadth once\n");
    return !each_once;
}
