/* What the functions of the library cost, for tools/library_facts.sh.
 * measure stack: of each function the deepest stack in bytes, over trips under each form of plan and over files, read
 * and refused ones. A call is made on a painted stack, which is looked over after it.
 * measure FUNCTION COUNT: so many calls of a function, on an account with 123 logged days and Surcharged services; of
 * a box with 16 cards these are uses by the last one.
 * measure names: the functions. */
#define _XOPEN_SOURCE 700
#include <inttypes.h>
#include <stdio.h>
#include <stdlib.h>
#include <string.h>
#include <ucontext.h>

#include "meter.h"

enum {
    OPEN, REGISTER, USE, TOP_UP, NEXT_DAY, AFFORD, IS_SOUND, BOX_OPEN, BOX_CALL, RUN, STATEMENT, READ, FIND, WRITE,
    CALL, TEXT_READ, TEXT_WRITE, CAPS, FUNCTIONS
};
enum { MOST_CALLS = 8184, MOST_BYTES = 65536, BEFORE_CALLS = 64, CALLS_SECTION = 2 };
enum { DAYS_AWAY = 145, DAYS_BACK = 130 };

static const uint64_t prepaid[METER_PLAN_NUMBERS] = {METER_PREPAID, 181, 10000, 60, 50, 0, 0};
static const uint64_t bundle[METER_PLAN_NUMBERS] = {METER_BUNDLE, 700, 10000, 60, 50, 100000, 1048576};
static const uint64_t unlimited[METER_PLAN_NUMBERS] = {METER_UNLIMITED, 1800, 0, 60, 50, 100000, 0};
static const uint64_t no_plan[METER_PLAN_NUMBERS] = {3, 0, 1000001, 0, 0, 10000001, 0};

/* What the next call is given. */
static const uint64_t *plan = prepaid;
static uint64_t place = METER_ZONE, kind = METER_OUTGOING, units = 1, points = 1, cap_day = 181;
static uint32_t section_kind = CALLS_SECTION;
static size_t calls = MOST_CALLS, bytes = MOST_BYTES;

static uint64_t box_action = METER_BOX_USE;
static size_t card = METER_BOX_CARDS - 1;

static uint64_t account[METER_ACCOUNT_NUMBERS], answer[METER_STATEMENT_NUMBERS];
static meter_card cards[METER_BOX_CARDS];
static uint32_t codes[MOST_CALLS], numbers[MOST_CALLS];
static uint8_t file[MOST_BYTES], written[MOST_BYTES], text[METER_TEXT_BYTES];
static uint32_t read_codes[MOST_CALLS], read_numbers[MOST_CALLS];
static size_t text_bytes;

static void die(const char *why)
{
    fprintf(stderr, "measure: %s\n", why);
    exit(1);
}

/* ---- the calls */

static uint64_t call_open(void)
{
    return meter_open(account, METER_ACCOUNT_NUMBERS, plan, METER_PLAN_NUMBERS);
}

static uint64_t call_register(void)
{
    return meter_register(account, METER_ACCOUNT_NUMBERS, place);
}

static uint64_t call_use(void)
{
    return meter_use(account, METER_ACCOUNT_NUMBERS, kind, units, answer, METER_USE_NUMBERS);
}

static uint64_t call_top_up(void)
{
    return meter_top_up(account, METER_ACCOUNT_NUMBERS, points);
}

static uint64_t call_next_day(void)
{
    return meter_next_day(account, METER_ACCOUNT_NUMBERS);
}

static uint64_t call_afford(void)
{
    return meter_afford(account, METER_ACCOUNT_NUMBERS, kind, answer, METER_AFFORD_NUMBERS);
}

static uint64_t call_is_sound(void)
{
    return meter_is_sound(account, METER_ACCOUNT_NUMBERS);
}

static uint64_t call_box_open(void)
{
    return meter_box_open(account, METER_ACCOUNT_NUMBERS, cards, METER_BOX_CARDS, plan, METER_PLAN_NUMBERS);
}

static uint64_t call_box_call(void)
{
    uint64_t which = box_action == METER_BOX_REGISTER ? place : kind;
    uint64_t n = box_action == METER_BOX_TOP_UP ? points : units;

    return meter_box_call(account, METER_ACCOUNT_NUMBERS, cards, METER_BOX_CARDS, box_action, card, which, n, answer,
                          METER_USE_NUMBERS);
}

static uint64_t call_run(void)
{
    return meter_run(account, METER_ACCOUNT_NUMBERS, file, bytes, answer, METER_RUN_NUMBERS);
}

static uint64_t call_statement(void)
{
    return meter_statement(file, bytes, answer, METER_STATEMENT_NUMBERS);
}

static uint64_t call_read(void)
{
    return meter_read(file, bytes, answer, METER_READ_NUMBERS);
}

static uint64_t call_find(void)
{
    return meter_find(file, bytes, section_kind, answer, METER_FIND_NUMBERS);
}

static uint64_t call_write(void)
{
    return meter_write(plan, METER_PLAN_NUMBERS, codes, calls, numbers, calls, written, MOST_BYTES, answer,
                       METER_WRITE_NUMBERS);
}

static uint64_t call_call(void)
{
    return meter_call(file + BEFORE_CALLS, bytes - BEFORE_CALLS, 0, answer, METER_CALL_NUMBERS);
}

static uint64_t call_text_read(void)
{
    return meter_text_read(text, text_bytes, read_codes, MOST_CALLS, read_numbers, MOST_CALLS, answer,
                           METER_TEXT_NUMBERS);
}

static uint64_t call_text_write(void)
{
    return meter_text_write(codes, calls, numbers, calls, text, METER_TEXT_BYTES, answer, METER_TEXT_NUMBERS);
}

static uint64_t call_caps(void)
{
    return meter_caps(cap_day, answer, METER_CAPS_NUMBERS);
}

static const struct {
    const char *name;
    uint64_t (*call)(void);
} functions[FUNCTIONS] = {
    {"meter_open", call_open},
    {"meter_register", call_register},
    {"meter_use", call_use},
    {"meter_top_up", call_top_up},
    {"meter_next_day", call_next_day},
    {"meter_afford", call_afford},
    {"meter_is_sound", call_is_sound},
    {"meter_box_open", call_box_open},
    {"meter_box_call", call_box_call},
    {"meter_run", call_run},
    {"meter_statement", call_statement},
    {"meter_read", call_read},
    {"meter_find", call_find},
    {"meter_write", call_write},
    {"meter_call", call_call},
    {"meter_text_read", call_text_read},
    {"meter_text_write", call_text_write},
    {"meter_caps", call_caps},
};

/* ---- the deepest stack */

enum { RETURN_ADDRESS = 8 };

static unsigned char room[1 << 17];
static ucontext_t outside, inside;
static uint64_t (*current)(void);
static uint64_t result;
static size_t deepest[FUNCTIONS], accepted[FUNCTIONS], refused[FUNCTIONS];

/* A function that takes nothing of the stack but its return address, and that is called as those of the library are. */
static uint64_t nothing(void)
{
    return 0;
}

static uint64_t (*volatile taking_nothing)(void) = nothing;

static uint64_t call_nothing(void)
{
    return taking_nothing();
}

static void run_current(void)
{
    result = current();
}

/* How many bytes of the painted stack were written in a call. */
static size_t depth_of(uint64_t (*call)(void))
{
    size_t clean = 0;

    current = call;
    memset(room, 0xa5, sizeof room);
    if (getcontext(&inside) != 0)
        die("no context");
    inside.uc_stack.ss_sp = room;
    inside.uc_stack.ss_size = sizeof room;
    inside.uc_link = &outside;
    makecontext(&inside, run_current, 0);
    if (swapcontext(&outside, &inside) != 0)
        die("no other stack");
    while (clean < sizeof room && room[clean] == 0xa5)
        clean++;
    return sizeof room - clean;
}

static void make(int function)
{
    size_t own = depth_of(call_nothing) - RETURN_ADDRESS;
    size_t depth = depth_of(functions[function].call) - own;

    if (depth > deepest[function])
        deepest[function] = depth;
    if (result == METER_ACCEPTED)
        accepted[function]++;
    else
        refused[function]++;
}

static void use_of_each_kind(uint64_t n)
{
    units = n;
    for (kind = METER_DATA; kind <= METER_SMS; kind++) {
        make(USE);
        make(AFFORD);
    }
}

/* Cards whose units add up to those of the account: all are the first card's. */
static void match_cards(void)
{
    const uint64_t *lifetime = account + METER_AT_LIFETIME;
    size_t i;

    for (i = 0; i < METER_BOX_CARDS; i++)
        cards[i] = (meter_card){0, 0, 0, 0, 0, 1000000000000};
    cards[0].kb = lifetime[0];
    cards[0].outgoing = lifetime[1];
    cards[0].incoming = lifetime[2];
    cards[0].sms = lifetime[3];
}

static void box_calls(uint64_t n)
{
    units = n;
    match_cards();
    for (kind = METER_DATA; kind <= METER_SMS; kind++)
        for (box_action = METER_BOX_REGISTER; box_action <= METER_BOX_AFFORD + 1; box_action++)
            if (box_action != METER_BOX_NEXT_DAY)
                make(BOX_CALL);
}

static void day_at(uint64_t where)
{
    place = where;
    make(REGISTER);
    make(TOP_UP);
    make(IS_SOUND);
    use_of_each_kind(10);
    use_of_each_kind(0);
    use_of_each_kind(1000000000);
    box_calls(10);
    box_calls(1000000000);
    make(NEXT_DAY);
}

static void days_at(uint64_t where, int days)
{
    while (days-- > 0)
        day_at(where);
}

/* In the zone until every service is Surcharged, then at home until none is. */
static void trip_under(const uint64_t *terms)
{
    const uint64_t *services = account + METER_AT_SERVICES;

    plan = terms;
    points = 10000000;
    make(BOX_OPEN);
    make(OPEN);
    use_of_each_kind(1);
    days_at(METER_ZONE, DAYS_AWAY);
    if (services[0] != 1 || services[1] != 1 || services[2] != 1)
        die("some service is not Surcharged after the days in the zone");
    days_at(METER_HOME, DAYS_BACK);
    if (services[0] != 0 || services[1] != 0 || services[2] != 0)
        die("some service is not Clear after the days at home");
    days_at(METER_ELSEWHERE, 1);
    match_cards();
    box_action = METER_BOX_NEXT_DAY;
    make(BOX_CALL);
    account[METER_AT_PLACE] = 4;
    day_at(METER_HOME);
}

/* Adds to a little-endian word of the file, without carrying beyond it. */
static void add_to_word(size_t word, uint32_t n)
{
    uint8_t *at = file + 4 * word;
    uint32_t sum = (at[0] | (uint32_t)at[1] << 8 | (uint32_t)at[2] << 16 | (uint32_t)at[3] << 24) + n;
    int i;

    for (i = 0; i < 4; i++)
        at[i] = (uint8_t)(sum >> 8 * i);
}

static void make_all_of_file(void)
{
    make(RUN);
    make(STATEMENT);
    make(READ);
    for (section_kind = 0; section_kind <= CALLS_SECTION; section_kind++)
        make(FIND);
}

/* Each word greater by one, without and with the sum put right. */
static void make_all_of_altered_file(void)
{
    size_t word;

    for (word = 0; word < bytes / 4; word++) {
        add_to_word(word, 1);
        make_all_of_file();
        add_to_word(1, (uint32_t)-1);
        make_all_of_file();
        add_to_word(1, 1);
        add_to_word(word, (uint32_t)-1);
    }
}

/* The file of so many calls, days in the zone with ten uses each. */
static void write_file(size_t count)
{
    uint64_t length = 0;
    size_t i;

    calls = count;
    bytes = BEFORE_CALLS + 8 * count;
    for (i = 0; i < count; i++) {
        size_t hour = i % 12;

        codes[i] = hour == 0 ? 1 : hour == 11 ? 7 : 2 + (uint32_t)hour % 4;
        numbers[i] = hour == 0 ? METER_ZONE : hour == 11 ? 0 : 10;
    }
    codes[0] = 6;
    numbers[0] = 10000000;
    if (meter_write(plan, METER_PLAN_NUMBERS, codes, count, numbers, count, file, MOST_BYTES, &length, 1)
            != METER_ACCEPTED || length != bytes)
        die("the file could not be written");
    if (call_text_write() != METER_ACCEPTED)
        die("the text could not be written");
    text_bytes = answer[0];
}

/* The text as it is, with each of its first bytes altered, and cut off. */
static void make_all_of_text(void)
{
    size_t i;

    make(TEXT_WRITE);
    make(TEXT_READ);
    for (i = 0; i < 24; i++) {
        text[i] ^= 1;
        make(TEXT_READ);
        text[i] ^= 1;
    }
    text_bytes--;
    make(TEXT_READ);
    text_bytes++;
}

static void files_under(const uint64_t *terms)
{
    plan = terms;
    make(OPEN);
    write_file(24);
    make(WRITE);
    make_all_of_file();
    make_all_of_altered_file();
    make_all_of_text();
    codes[5] = 8;
    make(WRITE);
    make(TEXT_WRITE);
    write_file(MOST_CALLS);
    make(WRITE);
    make_all_of_file();
    make_all_of_text();
    make(CALL);
    bytes = BEFORE_CALLS + 7;
    make(CALL);
}

static void print_stack(void)
{
    int i;

    for (i = 0; i < FUNCTIONS; i++) {
        if (accepted[i] == 0 || (i != CAPS && refused[i] == 0))
            die("some function was never accepted, or never refused");
        printf("%s %zu\n", functions[i].name, deepest[i]);
    }
}

static void measure_stack(void)
{
    plan = no_plan;
    make(OPEN);
    make(BOX_OPEN);
    trip_under(prepaid);
    trip_under(bundle);
    trip_under(unlimited);
    files_under(prepaid);
    files_under(bundle);
    for (cap_day = 0; cap_day < 2000; cap_day += 100)
        make(CAPS);
    print_stack();
}

/* ---- so many calls of a function */

static void prepare(void)
{
    int day;

    write_file(MOST_CALLS);
    call_open();
    points = 10000000;
    call_top_up();
    for (day = 0; day < DAYS_AWAY; day++) {
        call_register();
        units = 10;
        for (kind = METER_DATA; kind <= METER_SMS; kind++)
            call_use();
        call_next_day();
    }
    call_register();
    if (account[METER_AT_SERVICES] != 1 || account[METER_AT_LOGGED] != 123)
        die("the account is not as it should be");
    points = 1;
    units = 1;
    match_cards();
    box_action = METER_BOX_USE;
}

static void make_many(int function, long count)
{
    prepare();
    kind = function == AFFORD ? METER_DATA : METER_OUTGOING;
    while (count-- > 0) {
        place = count % 2 == 0 ? METER_HOME : METER_ZONE;
        if (functions[function].call() != METER_ACCEPTED)
            die("a call was refused");
    }
}

static int function_named(const char *name)
{
    int i;

    for (i = 0; i < FUNCTIONS; i++)
        if (strcmp(functions[i].name, name) == 0)
            return i;
    die("there is no such function");
    return FUNCTIONS;
}

int main(int count, char **words)
{
    int i;

    if (count == 2 && strcmp(words[1], "stack") == 0)
        measure_stack();
    else if (count == 2 && strcmp(words[1], "names") == 0)
        for (i = 0; i < FUNCTIONS; i++)
            puts(functions[i].name);
    else if (count == 3)
        make_many(function_named(words[1]), atol(words[2]));
    else
        die("usage: measure stack, measure names, or measure FUNCTION COUNT");
    return 0;
}
