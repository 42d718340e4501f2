/* Document 01's example planned by file and on numbers, the same with quiet hours, as many deliveries as there may be, a lookup of spare, and
 * calls turned down. */
#include <stdio.h>
#include "fothwen.h"

static const char *const words[] = {"found", "none", "stopped"};

static void show(const char *call, fothwen_plan_reply reply) {
    if (reply.word == FOTHWEN_REFUSED)
        printf("%s: refused by %d at place %d\n", call, (int)reply.number, (int)reply.place);
    else
        printf("%s: %s, %d minutes, %d tries\n", call, words[reply.word], (int)reply.minutes, (int)reply.tries);
}

static void show_lookup(int amount, fothwen_lookup_reply reply) {
    printf("%d Wh to spare: ", amount);
    if (reply.word == FOTHWEN_REFUSED)
        printf("refused by %d at place %d\n", (int)reply.number, (int)reply.place);
    else if (reply.word == FOTHWEN_NONE)
        printf("none\n");
    else
        printf("engine %d\n", (int)reply.engine);
}

static void by_file(void) {
    static const char file[] =
        "plan,fixed,60,100\r\n"
        "engine,E1,3000,1000000000\r\n"
        "engine,E2,5000,1000000000\r\n"
        "delivery,D1,5000,2\r\n"
        "delivery,D2,3000,2\r\n";
    const uint8_t *bytes = (const uint8_t *)file;
    const size_t size = sizeof file - 1;
    uint64_t table[FOTHWEN_FILE_TABLE + 1] = {0}, spare[FOTHWEN_FILE_SPARE + 1] = {0};
    uint8_t output[FOTHWEN_LONGEST_PRINT];
    fothwen_plan_reply reply;

    reply = fothwen_plan_file(bytes, size, table, FOTHWEN_FILE_TABLE, spare, FOTHWEN_FILE_SPARE, output, sizeof output);
    show("by file", reply);
    fwrite(output, 1, reply.length, stdout);
    show("no bytes", fothwen_plan_file(NULL, 0, table, FOTHWEN_FILE_TABLE, spare, FOTHWEN_FILE_SPARE, output, sizeof output));
    show("a table of 443", fothwen_plan_file(bytes, size, table, 443, spare, FOTHWEN_FILE_SPARE, output, sizeof output));
    show("a table of 445", fothwen_plan_file(bytes, size, table, 445, spare, FOTHWEN_FILE_SPARE, output, sizeof output));
    show("a spare list of 13", fothwen_plan_file(bytes, size, table, FOTHWEN_FILE_TABLE, spare, 13, output, sizeof output));
    show("no output", fothwen_plan_file(bytes, size, table, FOTHWEN_FILE_TABLE, spare, FOTHWEN_FILE_SPARE, NULL, 0));
}

static const uint64_t watts[] = {3000, 5000}, fuels[] = {1000000000, 1000000000};
static const uint64_t energies[] = {5000, 3000}, limits[] = {2, 2};

static void on_numbers(void) {
    uint64_t table[4] = {0}, spare[2] = {0};

    show("on numbers", fothwen_allocate(FOTHWEN_FIXED, 60, 100, watts, 2, fuels, 2, energies, 2, limits, 2, NULL, 0, table, 4, spare, 2));
    printf("pieces %d %d, %d %d\n", (int)table[0], (int)table[1], (int)table[2], (int)table[3]);
    show("shortest", fothwen_allocate(FOTHWEN_SHORTEST, 120, 100, watts, 2, fuels, 2, energies, 2, limits, 2, NULL, 0, table, 4, spare, 2));
    show("no deliveries", fothwen_allocate(FOTHWEN_SHORTEST, 120, 0, watts, 2, fuels, 2, NULL, 0, NULL, 0, NULL, 0, NULL, 0, spare, 2));
    show("a third mode", fothwen_allocate(2, 60, 100, watts, 2, fuels, 2, energies, 2, limits, 2, NULL, 0, table, 4, spare, 2));
    show("a third mode, a table of 3", fothwen_allocate(2, 60, 100, watts, 2, fuels, 2, energies, 2, limits, 2, NULL, 0, table, 3, spare, 2));
    show("a spare list of 1", fothwen_allocate(FOTHWEN_FIXED, 60, 100, watts, 2, fuels, 2, energies, 2, limits, 2, NULL, 0, table, 4, spare, 1));
    show("a fuel missing", fothwen_allocate(FOTHWEN_FIXED, 60, 100, watts, 2, fuels, 1, energies, 2, limits, 2, NULL, 0, table, 4, spare, 2));
}

static fothwen_plan_reply with_spans(const uint64_t *quiet, size_t length) {
    uint64_t table[4] = {0}, spare[2] = {0};

    return fothwen_allocate(FOTHWEN_SHORTEST, 120, 100, watts, 2, fuels, 2, energies, 2, limits, 2, quiet, length, table, 4, spare, 2);
}

/* E2 stands still from minute 10 to before minute 34. Before minute 75 it runs for 51 minutes and gives 4250 Wh, E1 3750; before minute 74 they
 * have 7866 of the 8000. */
static void quiet_hours(void) {
    static const char file[] =
        "plan,shortest,120,100\r\n"
        "engine,E1,3000,1000000000\r\n"
        "engine,E2,5000,1000000000\r\n"
        "quiet,E2,10,34\r\n"
        "delivery,D1,5000,2\r\n"
        "delivery,D2,3000,2\r\n"
        "quiet,E2,33,50\r\n";
    const uint8_t *bytes = (const uint8_t *)file;
    const size_t whole = sizeof file - 1, sound = whole - (sizeof "quiet,E2,33,50\r\n" - 1);
    static const uint64_t span[] = {2, 10, 34}, touching[] = {2, 20, 34, 2, 10, 20}, overlapping[] = {2, 10, 34, 2, 33, 50};
    static const uint64_t nobody[] = {3, 10, 34}, late[] = {3, 10, 10081};
    uint64_t table[FOTHWEN_FILE_TABLE] = {0}, spare[FOTHWEN_FILE_SPARE] = {0};
    uint8_t output[FOTHWEN_LONGEST_PRINT];
    fothwen_plan_reply reply;

    reply = fothwen_plan_file(bytes, sound, table, FOTHWEN_FILE_TABLE, spare, FOTHWEN_FILE_SPARE, output, sizeof output);
    show("quiet hours by file", reply);
    fwrite(output, 1, reply.length, stdout);
    show("a span that overlaps", fothwen_plan_file(bytes, whole, table, FOTHWEN_FILE_TABLE, spare, FOTHWEN_FILE_SPARE, output, sizeof output));
    show("quiet hours on numbers", with_spans(span, 3));
    show("in two that touch", with_spans(touching, 6));
    show("a span that overlaps", with_spans(overlapping, 6));
    show("of no engine", with_spans(nobody, 3));
    show("of no engine, TO too large", with_spans(late, 3));
    show("TO missing", with_spans(span, 2));
}

/* An engine and deliveries of 1 Wh, on numbers and in a file: 37 are planned, and one more is refused. */
static void crowds(void) {
    static const uint64_t capacity[] = {40};
    uint64_t ones[38], table[FOTHWEN_FILE_TABLE] = {0}, spare[FOTHWEN_FILE_SPARE] = {0};
    uint8_t output[FOTHWEN_LONGEST_PRINT];
    char file[2048];
    size_t count, size;

    for (count = 0; count < 38; count++)
        ones[count] = 1;
    size = (size_t)sprintf(file, "plan,fixed,60,100\r\nengine,E1,40,40\r\n");
    for (count = 1; count <= 38; count++) {
        size += (size_t)sprintf(file + size, "delivery,D%d,1,1\r\n", (int)count);
        if (count < 37)
            continue;
        printf("%d deliveries\n", (int)count);
        show("on numbers", fothwen_allocate(FOTHWEN_FIXED, 60, 100, capacity, 1, capacity, 1, ones, count, ones, count, NULL, 0,
            table, count, spare, 1));
        show("by file", fothwen_plan_file((const uint8_t *)file, size, table, FOTHWEN_FILE_TABLE, spare, FOTHWEN_FILE_SPARE, output, sizeof output));
    }
}

/* In 75 minutes E1 gives all its 3750 Wh, and E2 has 2000 of its 6250 to spare. */
static void lookups(void) {
    uint64_t table[4] = {0}, spare[2] = {0};

    show("in 75 minutes", fothwen_allocate(FOTHWEN_FIXED, 75, 100, watts, 2, fuels, 2, energies, 2, limits, 2, NULL, 0, table, 4, spare, 2));
    printf("spare %d %d\n", (int)spare[0], (int)spare[1]);
    show_lookup(2000, fothwen_spare_lookup(spare, 2, 2000));
    show_lookup(2001, fothwen_spare_lookup(spare, 2, 2001));
    show_lookup(0, fothwen_spare_lookup(spare, 2, 0));
    show_lookup(1, fothwen_spare_lookup(NULL, 0, 1));
}

int main(void) {
    by_file();
    on_numbers();
    quiet_hours();
    crowds();
    lookups();
    return 0;
}
