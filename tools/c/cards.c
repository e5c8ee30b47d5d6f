/* Holds the family box of include/meter.h to the library: every field of a card, every call by its name and its number,
 * and the example of source 002, art. 29: presence and traffic are summed over the cards of a contract, and the
 * surcharge bears on all of them. The expected figures are worked out by hand. */
#include <inttypes.h>
#include <stdio.h>

#include "meter.h"

#define CHECK(value, expected) check(__LINE__, #value, (value), (expected))
#define CHECK_CARD(card, ...) check_card(__LINE__, (card), (const meter_card){__VA_ARGS__})

enum { CARDS = 3, ZONE_DAYS = 62, HOME_DAYS = 61, SHORT_WINDOW = 15 };

static const uint64_t free_plan[METER_PLAN_NUMBERS] = {METER_UNLIMITED, 181, 0, 0, 0, 1000000, 0};
static const uint64_t priced_plan[METER_PLAN_NUMBERS] = {METER_PREPAID, 1488, 10000, 600, 500, 0, 0};

static uint64_t account[METER_ACCOUNT_NUMBERS], answer[METER_USE_NUMBERS];
static meter_card cards[METER_BOX_CARDS + 1];
static unsigned long checks, failures;

static void check(int line, const char *what, uint64_t value, uint64_t expected)
{
    checks++;
    if (value == expected)
        return;
    failures++;
    printf("cards: line %d: %s is %" PRIu64 " and not %" PRIu64 "\n", line, what, value, expected);
}

static void check_card(int line, size_t place, meter_card expected)
{
    check(line, "kb", cards[place].kb, expected.kb);
    check(line, "outgoing", cards[place].outgoing, expected.outgoing);
    check(line, "incoming", cards[place].incoming, expected.incoming);
    check(line, "sms", cards[place].sms, expected.sms);
    check(line, "monthly", cards[place].monthly, expected.monthly);
    check(line, "allowance", cards[place].allowance, expected.allowance);
}

/* ---- calls with all counts right */

static uint64_t open_box(const uint64_t *plan, size_t count)
{
    return meter_box_open(account, METER_ACCOUNT_NUMBERS, cards, count, plan, METER_PLAN_NUMBERS);
}

static uint64_t enter(uint64_t place)
{
    return meter_box_register(account, METER_ACCOUNT_NUMBERS, cards, CARDS, place);
}

static uint64_t use(size_t card, uint64_t kind, uint64_t n)
{
    return meter_box_use(account, METER_ACCOUNT_NUMBERS, cards, CARDS, card, kind, n, answer, METER_USE_NUMBERS);
}

static uint64_t top_up(uint64_t points)
{
    return meter_box_top_up(account, METER_ACCOUNT_NUMBERS, cards, CARDS, points);
}

static uint64_t next_day(void)
{
    return meter_box_next_day(account, METER_ACCOUNT_NUMBERS, cards, CARDS);
}

static uint64_t afford(size_t card, uint64_t kind)
{
    return meter_box_afford(account, METER_ACCOUNT_NUMBERS, cards, CARDS, card, kind, answer, METER_AFFORD_NUMBERS);
}

static void allow(uint64_t kb)
{
    size_t i;

    for (i = 0; i <= METER_BOX_CARDS; i++)
        cards[i] = (meter_card){1, 2, 3, 4, 5, kb};
}

/* ---- the calls and the fields */

/* Day 1488 is 28 January 2026: four day changes lead to 1 February. */
static void own_records(void)
{
    allow(2000);
    CHECK(open_box(priced_plan, CARDS), METER_ACCEPTED);
    CHECK_CARD(2, 0, 0, 0, 0, 0, 2000);
    CHECK(use(0, METER_DATA, 1), 3);
    CHECK(top_up(22000), METER_ACCEPTED);
    CHECK(enter(METER_ZONE), METER_ACCEPTED);
    CHECK(use(0, METER_DATA, 1000), METER_ACCEPTED);
    CHECK(use(0, METER_OUTGOING, 10), METER_ACCEPTED);
    CHECK(answer[0], 300);
    CHECK(answer[3], 30);
    CHECK(enter(METER_HOME), METER_ACCEPTED);
    CHECK(use(0, METER_DATA, 600), METER_ACCEPTED);
    CHECK(enter(METER_ELSEWHERE), METER_ACCEPTED);
    CHECK(use(0, METER_DATA, 401), 20);
    CHECK(afford(0, METER_DATA), METER_ACCEPTED);
    CHECK(answer[0], 400);
    CHECK(use(0, METER_DATA, 400), METER_ACCEPTED);
    CHECK(use(1, METER_INCOMING, 7), METER_ACCEPTED);
    CHECK(use(2, METER_SMS, 1), METER_ACCEPTED);
    CHECK_CARD(0, 2000, 10, 0, 0, 2000, 2000);
    CHECK_CARD(1, 0, 0, 7, 0, 0, 2000);
    CHECK_CARD(2, 0, 0, 0, 1, 0, 2000);
    CHECK(account[METER_AT_LIFETIME], 2000);
    CHECK(account[METER_AT_CREDIT], 22000 - 300 - 15);
}

static void next_month(void)
{
    int i;

    for (i = 0; i < 3; i++)
        CHECK(next_day(), METER_ACCEPTED);
    CHECK_CARD(0, 2000, 10, 0, 0, 2000, 2000);
    CHECK(next_day(), METER_ACCEPTED);
    CHECK(account[METER_AT_DAY], 1492);
    CHECK_CARD(0, 2000, 10, 0, 0, 0, 2000);
}

static void refusals(void)
{
    CHECK(use(CARDS, METER_SMS, 1), 19);
    CHECK(afford(CARDS, METER_SMS), 19);
    CHECK(use(0, METER_DATA, 2001), 20);
    CHECK(use(0, METER_DATA, 0), 4);
    CHECK(use(0, 4, 1), METER_BAD_ARGUMENT);
    CHECK(enter(3), METER_BAD_ARGUMENT);
    CHECK(top_up(0), 7);
    cards[1].incoming++;
    CHECK(use(CARDS, METER_SMS, 1), 0);
    CHECK(next_day(), 0);
    cards[1].incoming--;
    CHECK(open_box(priced_plan, 0), 19);
    CHECK(open_box(priced_plan, METER_BOX_CARDS + 1), 19);
    cards[1].allowance = 1000000000001;
    CHECK(open_box(priced_plan, CARDS), 20);
    CHECK_CARD(0, 2000, 10, 0, 0, 0, 2000);
    cards[1].allowance = 2000;
    CHECK(next_day(), METER_ACCEPTED);
}

/* ---- source 002, art. 29 */

static void days(int count, uint64_t place, size_t card, uint64_t kb)
{
    int i;

    for (i = 0; i < count; i++) {
        CHECK(enter(place), METER_ACCEPTED);
        CHECK(use(card, METER_DATA, kb), METER_ACCEPTED);
        CHECK(next_day(), METER_ACCEPTED);
    }
}

/* One card is abroad on 62 of 123 days, with 1 kB a day, another at home on 61, with 61 kB in all but for `more` on the
 * last day: the sums decide, 62 kB in the zone against 61, or 62. */
static uint64_t state_after(uint64_t more)
{
    allow(1000000000000);
    CHECK(open_box(free_plan, CARDS), METER_ACCEPTED);
    days(ZONE_DAYS, METER_ZONE, 0, 1);
    days(HOME_DAYS - 1, METER_HOME, 1, 1);
    days(1, METER_HOME, 1, 1 + more);
    return account[METER_AT_SERVICES];
}

/* The surcharge bears on the third card, too, which was not used before: 1 GB at the cap of day 319, 20,000 points. */
static void summed_over_cards(void)
{
    CHECK(state_after(1), 0);
    CHECK(state_after(0), 2);
    days(SHORT_WINDOW, METER_ZONE, 0, 1);
    CHECK(account[METER_AT_SERVICES], 1);
    CHECK(account[METER_AT_DAY], 319);
    CHECK(top_up(40000), METER_ACCEPTED);
    CHECK(use(2, METER_DATA, 1048576), METER_ACCEPTED);
    CHECK(answer[1], 20000);
    CHECK(answer[2], 1048576);
    CHECK_CARD(2, 1048576, 0, 0, 0, 1048576, 1000000000000);
    CHECK(account[METER_AT_CREDIT], 20000);
}

int main(void)
{
    own_records();
    next_month();
    refusals();
    summed_over_cards();
    if (failures > 0) {
        printf("cards: %lu of %lu values are wrong\n", failures, checks);
        return 1;
    }
    printf("cards: %lu values are as worked out by hand\n", checks);
    return 0;
}
