/* A small box with the roaming meter, in C99. It goes through the ferry example: a traveller with a prepaid plan pays
 * in, enters the zone, and uses data and an SMS. After each call it shows what the traveller reads: whether the call
 * was accepted, the points that it took, the credit, and how much zone data is left.
 *
 *     ./library
 *     cc -std=c99 -Iinclude examples/box.c lib/libmeter.a -o box
 *     ./box
 *
 * It prints examples/box.txt. */
#include <inttypes.h>
#include <stdio.h>

#include "meter.h"

/* Where the numbers of meter_use's answer stand. */
enum { HOME_POINTS, SURCHARGE_POINTS, SURCHARGED_UNITS, CHARGED_UNITS, LIMIT_NOTICE };

static const uint64_t plan[METER_PLAN_NUMBERS] = {
    METER_PREPAID, /* form */
    1461,          /* start day: 1 January 2026 */
    10000,         /* points per GB */
    600,           /* points per outgoing minute */
    500,           /* points per SMS */
    0,             /* monthly fee: a prepaid plan has none */
    0              /* monthly volume: nor this */
};

static const char *const place_names[] = {"home", "zone", "elsewhere"};
static const char *const kind_names[] = {"data", "outgoing call", "incoming call", "SMS"};
static const char *const unit_names[] = {" kB", " s", " s", ""};

/* All that the box keeps of its account. The meter has no copy of it. */
static uint64_t account[METER_ACCOUNT_NUMBERS];

static void show_result(uint64_t result)
{
    if (result == METER_ACCEPTED)
        puts("accepted");
    else if (result == METER_BAD_ARGUMENT)
        puts("no call: the arguments are wrong");
    else
        printf("refused %" PRIu64 "\n", result);
}

static uint64_t kb_left(uint64_t limit, uint64_t roamed)
{
    return roamed < limit ? limit - roamed : 0;
}

static void show_zone_data(void)
{
    uint64_t limit = account[METER_AT_LIMIT];

    if (limit == 0)
        puts("no limit of zone data");
    else
        printf("zone data left %" PRIu64 " kB\n", kb_left(limit - 1, account[METER_AT_ROAMED]));
}

static void show_account(uint64_t taken)
{
    printf("    taken %" PRIu64 ", credit %" PRIu64 ", ", taken, account[METER_AT_CREDIT]);
    show_zone_data();
}

static void open_account(void)
{
    uint64_t result = meter_open(account, METER_ACCOUNT_NUMBERS, plan, METER_PLAN_NUMBERS);

    printf("open: ");
    show_result(result);
    show_account(0);
}

static void top_up(uint64_t points)
{
    uint64_t result = meter_top_up(account, METER_ACCOUNT_NUMBERS, points);

    printf("top-up %" PRIu64 ": ", points);
    show_result(result);
    show_account(0);
}

static void enter(enum meter_place place)
{
    uint64_t result = meter_register(account, METER_ACCOUNT_NUMBERS, place);

    printf("register %s: ", place_names[place]);
    show_result(result);
    show_account(0);
}

/* A refused use leaves the answer as it is, so that nothing is taken and there is no notice. */
static void use(enum meter_kind kind, uint64_t units)
{
    uint64_t answer[METER_USE_NUMBERS] = {0};
    uint64_t result = meter_use(account, METER_ACCOUNT_NUMBERS, kind, units, answer, METER_USE_NUMBERS);

    printf("%s %" PRIu64 "%s: ", kind_names[kind], units, unit_names[kind]);
    show_result(result);
    show_account(answer[HOME_POINTS] + answer[SURCHARGE_POINTS]);
    if (answer[LIMIT_NOTICE])
        puts("    notice: the zone data limit is used up");
}

int main(void)
{
    open_account();
    top_up(22000);
    enter(METER_ZONE);
    use(METER_DATA, 2097152);
    use(METER_DATA, 1);
    use(METER_DATA, 104857);
    use(METER_SMS, 1);
    return 0;
}
