/* A family box with the roaming meter, in C99: three cards on one prepaid plan and one credit, on a trip. Each card has
 * an allowance of its own for data in a month; the third is for calls and SMS alone. After each call it shows whether
 * it was accepted, the credit, which is common, and the kB of the month of each card.
 *
 *     ./library
 *     cc -std=c99 -Iinclude examples/family.c lib/libmeter.a -o family
 *     ./family
 *
 * It prints examples/family.txt. */
#include <inttypes.h>
#include <stdio.h>

#include "meter.h"

enum { CARDS = 3, DAYS = 31 };

static const uint64_t plan[METER_PLAN_NUMBERS] = {
    METER_PREPAID, /* form */
    1461,          /* start day: 1 January 2026 */
    10000,         /* points per GB */
    600,           /* points per outgoing minute */
    500,           /* points per SMS */
    0,             /* monthly fee: a prepaid plan has none */
    0              /* monthly volume: nor this */
};

static const char *const kind_names[] = {"data", "outgoing call", "incoming call", "SMS"};
static const char *const unit_names[] = {" kB", " s", " s", ""};

/* All that the box keeps: the account, and the cards with their allowances. */
static uint64_t account[METER_ACCOUNT_NUMBERS];
static meter_card cards[CARDS] = {{.allowance = 2000000}, {.allowance = 500000}, {.allowance = 0}};

static void show(uint64_t result)
{
    size_t i;

    if (result == METER_ACCEPTED)
        puts("accepted");
    else
        printf("refused %" PRIu64 "\n", result);
    printf("    credit %" PRIu64 ", kB of the month", account[METER_AT_CREDIT]);
    for (i = 0; i < CARDS; i++)
        printf(" %" PRIu64, cards[i].monthly);
    puts("");
}

static void use(size_t card, enum meter_kind kind, uint64_t units)
{
    uint64_t answer[METER_USE_NUMBERS] = {0};
    uint64_t result =
        meter_box_use(account, METER_ACCOUNT_NUMBERS, cards, CARDS, card, kind, units, answer, METER_USE_NUMBERS);

    printf("card %zu, %s %" PRIu64 "%s: ", card, kind_names[kind], units, unit_names[kind]);
    show(result);
}

static void show_afford(size_t card)
{
    uint64_t kb = 0;
    uint64_t result = meter_box_afford(account, METER_ACCOUNT_NUMBERS, cards, CARDS, card, METER_DATA, &kb, 1);

    printf("card %zu can use %" PRIu64 " kB: ", card, kb);
    show(result);
}

static void wait_for_next_month(void)
{
    uint64_t result = METER_ACCEPTED;
    int day;

    for (day = 0; day < DAYS && result == METER_ACCEPTED; day++)
        result = meter_box_next_day(account, METER_ACCOUNT_NUMBERS, cards, CARDS);
    printf("%d days later: ", DAYS);
    show(result);
}

int main(void)
{
    printf("open: ");
    show(meter_box_open(account, METER_ACCOUNT_NUMBERS, cards, CARDS, plan, METER_PLAN_NUMBERS));
    printf("top-up 22000: ");
    show(meter_box_top_up(account, METER_ACCOUNT_NUMBERS, cards, CARDS, 22000));
    printf("register zone: ");
    show(meter_box_register(account, METER_ACCOUNT_NUMBERS, cards, CARDS, METER_ZONE));
    use(0, METER_DATA, 1048576);
    use(1, METER_DATA, 500001);
    use(1, METER_DATA, 500000);
    use(2, METER_DATA, 1);
    use(2, METER_OUTGOING, 10);
    use(3, METER_SMS, 1);
    show_afford(0);
    show_afford(1);
    wait_for_next_month();
    use(1, METER_DATA, 1);
    return 0;
}
