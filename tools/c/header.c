/* Holds include/meter.h to the library: every name of a return, a count, a kind, a place, a form, and of where a number
 * of an account or of an answer stands. The expected figures are worked out by hand. It is one trip under the prepaid
 * plan of the ferry example, one under each form of bundle, and one for each service that ends Surcharged. */
#include <inttypes.h>
#include <stdio.h>
#include <string.h>

#include "meter.h"

#define CHECK(value, expected) check(__LINE__, #value, (value), (expected))
#define CHECK_ROW(first, ...) \
    check_row(__LINE__, #first, (first), (const uint64_t[]){__VA_ARGS__}, \
              sizeof (uint64_t[]){__VA_ARGS__} / sizeof(uint64_t))

/* A number that no call writes into an answer here. */
#define UNTOUCHED 777777777777u

static const uint64_t ferry_plan[METER_PLAN_NUMBERS] = {METER_PREPAID, 1461, 10000, 600, 500, 0, 0};
static const uint64_t bundle_plan[METER_PLAN_NUMBERS] = {METER_BUNDLE, 1800, 10001, 601, 501, 100000, 1048576};
static const uint64_t unlimited_plan[METER_PLAN_NUMBERS] = {METER_UNLIMITED, 1461, 0, 600, 500, 11000, 0};
static const uint64_t early_plan[METER_PLAN_NUMBERS] = {METER_PREPAID, 181, 0, 0, 50, 0, 0};
static const uint32_t ferry_codes[] = {6, 1, 2, 2, 2, 5};
static const uint32_t ferry_numbers[] = {22000, 1, 2097152, 1, 104857, 1};
enum { FERRY_CALLS = 6, FERRY_BYTES = 112 };

static uint64_t account[METER_ACCOUNT_NUMBERS + 1], answer[METER_STATEMENT_NUMBERS + 1];
static uint8_t file[FERRY_BYTES + 1];
static const char ferry_text[] = "topup,22000\nregister,1\ndata,2097152\ndata,1\ndata,104857\nsms,1\n";
enum { FERRY_TEXT = sizeof ferry_text - 1 };
static uint8_t text[FERRY_TEXT + 1];
static uint32_t read_codes[FERRY_CALLS + 1], read_numbers[FERRY_CALLS + 1];
static unsigned long checks, failures;

static void check(int line, const char *what, uint64_t value, uint64_t expected)
{
    checks++;
    if (value == expected)
        return;
    failures++;
    printf("header: line %d: %s is %" PRIu64 " and not %" PRIu64 "\n", line, what, value, expected);
}

static void check_row(int line, const char *what, const uint64_t *first, const uint64_t *expected, size_t count)
{
    char name[100];
    size_t i;

    for (i = 0; i < count; i++) {
        snprintf(name, sizeof name, "number %zu of %s", i, what);
        check(line, name, first[i], expected[i]);
    }
}

/* ---- calls with all counts right */

static uint64_t open_under(const uint64_t *plan)
{
    return meter_open(account, METER_ACCOUNT_NUMBERS, plan, METER_PLAN_NUMBERS);
}

static uint64_t top_up(uint64_t points)
{
    return meter_top_up(account, METER_ACCOUNT_NUMBERS, points);
}

static uint64_t enter(uint64_t place)
{
    return meter_register(account, METER_ACCOUNT_NUMBERS, place);
}

static uint64_t use(uint64_t kind, uint64_t n)
{
    return meter_use(account, METER_ACCOUNT_NUMBERS, kind, n, answer, METER_USE_NUMBERS);
}

static uint64_t next_day(void)
{
    return meter_next_day(account, METER_ACCOUNT_NUMBERS);
}

static uint64_t write_ferry(size_t buffer_bytes, size_t answer_numbers)
{
    return meter_write(ferry_plan, METER_PLAN_NUMBERS, ferry_codes, FERRY_CALLS, ferry_numbers, FERRY_CALLS, file,
                       buffer_bytes, answer, answer_numbers);
}

/* ---- the trips */

/* Entering, the credit of 22,000 gives 22000 x 1048576 / 11000 = 2,097,152 kB. */
static void ferry_calls(void)
{
    CHECK(open_under(ferry_plan), METER_ACCEPTED);
    CHECK(use(METER_DATA, 1), 3);
    CHECK(top_up(22000), METER_ACCEPTED);
    CHECK(account[METER_AT_LIMIT], 1);
    CHECK(enter(METER_ZONE), METER_ACCEPTED);
    CHECK(use(METER_DATA, 2097152), METER_ACCEPTED);
    CHECK_ROW(answer, 20000, 0, 0, 2097152, 1);
    CHECK(use(METER_DATA, 1), METER_ACCEPTED);
    CHECK_ROW(answer, 0, 0, 1, 1, 0);
    CHECK(use(METER_DATA, 104857), 6);
    CHECK(use(METER_SMS, 1), METER_ACCEPTED);
    CHECK_ROW(answer, 500, 0, 0, 1, 0);
    CHECK(use(METER_OUTGOING, 10), METER_ACCEPTED);
    CHECK_ROW(answer, 300, 0, 0, 30, 0);
    CHECK(use(METER_INCOMING, 7), METER_ACCEPTED);
}

static void ferry_places(void)
{
    CHECK_ROW(account + METER_AT_PLAN, METER_PREPAID, 1461, 10000, 600, 500, 0, 0);
    CHECK(account[METER_AT_DAY], 1461);
    CHECK(account[METER_AT_PLACE], 2);
    CHECK(account[METER_AT_CREDIT], 1200);
    CHECK(account[METER_AT_PAID], 22000);
    CHECK(account[METER_AT_HOME_CHARGES], 20800);
    CHECK(account[METER_AT_SURCHARGES], 0);
    CHECK_ROW(account + METER_AT_LIFETIME, 2097153, 10, 7, 1);
    CHECK(account[METER_AT_CHARGED_SECONDS], 30);
    CHECK_ROW(account + METER_AT_PRICED, 2097153, 30, 0, 1);
    CHECK_ROW(account + METER_AT_SURCHARGED, 1, 0, 0, 0);
    CHECK_ROW(account + METER_AT_CAP_SUMS, 11000, 0, 0, 0);
    CHECK(account[METER_AT_MONTHLY], 0);
    CHECK(account[METER_AT_ROAMED], 2097153);
    CHECK(account[METER_AT_LIMIT], 2097153);
    CHECK(account[METER_AT_MARKS], 2);
    CHECK_ROW(account + METER_AT_TODAY, 0, 0, 0, 0, 2097153, 10, 7, 1, 0, 0, 0, 0);
    CHECK(account[METER_AT_LOGGED], 0);
    CHECK_ROW(account + METER_AT_SERVICES, 0, 0, 0);
}

/* Elsewhere is free, and 5 kB more at home cost less than a point. */
static void rest_of_ferry_day(void)
{
    CHECK(enter(METER_ELSEWHERE), METER_ACCEPTED);
    CHECK(account[METER_AT_PLACE], 3);
    CHECK(use(METER_SMS, 3), METER_ACCEPTED);
    CHECK(account[METER_AT_MARKS], 6);
    CHECK(enter(METER_HOME), METER_ACCEPTED);
    CHECK(account[METER_AT_PLACE], 1);
    CHECK(use(METER_DATA, 5), METER_ACCEPTED);
    CHECK(account[METER_AT_MARKS], 7);
    CHECK_ROW(account + METER_AT_TODAY, 5, 0, 0, 0, 2097153, 10, 7, 1, 0, 0, 0, 3);
    CHECK(meter_afford(account, METER_ACCOUNT_NUMBERS, METER_SMS, answer, METER_AFFORD_NUMBERS), METER_ACCEPTED);
    CHECK(answer[0], 2);
    CHECK(next_day(), METER_ACCEPTED);
    CHECK_ROW(account + METER_AT_LOG, 7, 5, 0, 0, 0, 2097153, 10, 7, 1, 0, 0, 0, 3, 0);
    CHECK(account[METER_AT_DAY], 1462);
    CHECK(account[METER_AT_MARKS], 0);
    CHECK(account[METER_AT_TODAY], 0);
    CHECK(account[METER_AT_LOGGED], 1);
}

/* A fee of 100,000 is not below a cap of 11,000 for 1 GB, so that this bundle is not open and has no limit. The other
 * one has one of 2 x 11000 x 1048576 / 11000 kB. */
static void bundles(void)
{
    CHECK(open_under(bundle_plan), METER_ACCEPTED);
    CHECK_ROW(account + METER_AT_PLAN, METER_BUNDLE, 1800, 10001, 601, 501, 100000, 1048576);
    CHECK(account[METER_AT_PLACE], 0);
    CHECK(account[METER_AT_LIMIT], 0);
    CHECK(enter(METER_HOME), METER_ACCEPTED);
    CHECK(use(METER_DATA, 7), METER_ACCEPTED);
    CHECK(account[METER_AT_MONTHLY], 7);
    CHECK(account[METER_AT_ROAMED], 0);
    CHECK(open_under(unlimited_plan), METER_ACCEPTED);
    CHECK(account[METER_AT_LIMIT], 2097153);
}

/* 123 days in the zone, each with one unit of a kind, warn its service; 15 day changes later it is Surcharged. */
static void service_ends_surcharged(uint64_t kind, size_t service)
{
    const uint64_t *states = account + METER_AT_SERVICES;
    int day;

    CHECK(open_under(early_plan), METER_ACCEPTED);
    CHECK(top_up(10000000), METER_ACCEPTED);
    CHECK(enter(METER_ZONE), METER_ACCEPTED);
    for (day = 1; day <= 123 + 15; day++) {
        CHECK(use(kind, 1), METER_ACCEPTED);
        CHECK(next_day(), METER_ACCEPTED);
        CHECK(states[service], day < 123 ? 0 : day < 123 + 15 ? 2 + (uint64_t)(day - 123) : 1);
        CHECK(states[0] + states[1] + states[2], states[service]);
    }
    CHECK(account[METER_AT_LOGGED], 123);
}

/* Two SMS at a price of 50 and, as the service is Surcharged, at the cap of 40. */
static void surcharged_messages(void)
{
    service_ends_surcharged(METER_SMS, 2);
    CHECK(use(METER_SMS, 2), METER_ACCEPTED);
    CHECK_ROW(answer, 100, 80, 2, 2, 0);
    CHECK(account[METER_AT_SURCHARGES], 80);
    CHECK_ROW(account + METER_AT_SURCHARGED, 0, 0, 0, 2);
    CHECK_ROW(account + METER_AT_CAP_SUMS, 0, 0, 0, 80);
}

static void ferry_file(void)
{
    CHECK(write_ferry(FERRY_BYTES - 1, METER_WRITE_NUMBERS), 16);
    CHECK(write_ferry(FERRY_BYTES, METER_WRITE_NUMBERS), METER_ACCEPTED);
    CHECK(answer[0], FERRY_BYTES);
    CHECK(meter_read(file, FERRY_BYTES, answer, METER_READ_NUMBERS), METER_ACCEPTED);
    CHECK_ROW(answer, METER_PREPAID, 1461, 10000, 600, 500, 0, 0, FERRY_CALLS);
    CHECK(meter_find(file, FERRY_BYTES, 1, answer, METER_FIND_NUMBERS), METER_ACCEPTED);
    CHECK_ROW(answer, 36, 28);
    CHECK(meter_find(file, FERRY_BYTES, 2, answer, METER_FIND_NUMBERS), METER_ACCEPTED);
    CHECK_ROW(answer, 64, 48);
    CHECK(meter_find(file, FERRY_BYTES, 3, answer, METER_FIND_NUMBERS), 13);
    CHECK(meter_call(file + 64, 48, 0, answer, METER_CALL_NUMBERS), METER_ACCEPTED);
    CHECK_ROW(answer, 6, 22000, 8);
    CHECK(meter_call(file + 64, 48, 40, answer, METER_CALL_NUMBERS), METER_ACCEPTED);
    CHECK_ROW(answer, 5, 1, 48);
    CHECK(meter_call(file + 64, 48, 41, answer, METER_CALL_NUMBERS), METER_END);
    CHECK(meter_statement(file, FERRY_BYTES, answer, METER_STATEMENT_NUMBERS), METER_ACCEPTED);
    CHECK_ROW(answer, 1461, 22000, 1500, 20500, 0, 2097153, 2097153, 1, 1);
    CHECK(open_under(ferry_plan), METER_ACCEPTED);
    CHECK(meter_run(account, METER_ACCOUNT_NUMBERS, file, FERRY_BYTES, answer, METER_RUN_NUMBERS), METER_ACCEPTED);
    CHECK(answer[0], 1);
    CHECK(account[METER_AT_CREDIT], 1500);
    CHECK(meter_caps(1461, answer, METER_CAPS_NUMBERS), METER_ACCEPTED);
    CHECK_ROW(answer, 11000, 190, 20, 30, 2);
}

static uint64_t write_text(size_t text_bytes, size_t answer_numbers)
{
    return meter_text_write(ferry_codes, FERRY_CALLS, ferry_numbers, FERRY_CALLS, text, text_bytes, answer,
                            answer_numbers);
}

static uint64_t read_text(const char *lines, size_t bytes, size_t places, size_t answer_numbers)
{
    return meter_text_read((const uint8_t *)lines, bytes, read_codes, places, read_numbers, FERRY_CALLS, answer,
                           answer_numbers);
}

/* The calls of the ferry as text, and back; then lines that are not of the form, and room that is too short. */
static void ferry_lines(void)
{
    size_t i;

    text[FERRY_TEXT] = 7;
    CHECK(write_text(FERRY_TEXT - 1, METER_TEXT_NUMBERS), 16);
    CHECK(write_text(FERRY_TEXT + 1, METER_TEXT_NUMBERS), METER_ACCEPTED);
    CHECK(answer[0], FERRY_TEXT);
    CHECK((uint64_t)memcmp(text, ferry_text, FERRY_TEXT), 0);
    CHECK(text[FERRY_TEXT], 7);
    read_codes[FERRY_CALLS] = 9;
    CHECK(read_text(ferry_text, FERRY_TEXT, FERRY_CALLS - 1, METER_TEXT_NUMBERS), 16);
    CHECK(read_text(ferry_text, FERRY_TEXT, FERRY_CALLS + 1, METER_TEXT_NUMBERS), METER_ACCEPTED);
    CHECK(answer[0], FERRY_CALLS);
    for (i = 0; i < FERRY_CALLS; i++) {
        CHECK(read_codes[i], ferry_codes[i]);
        CHECK(read_numbers[i], ferry_numbers[i]);
    }
    CHECK(read_codes[FERRY_CALLS], 9);
    CHECK(read_text(ferry_text, FERRY_TEXT - 1, FERRY_CALLS, METER_TEXT_NUMBERS), 22);
    CHECK(answer[0], FERRY_CALLS);
    CHECK(read_text("sms,1\nsms,01\n", 13, FERRY_CALLS, METER_TEXT_NUMBERS), 22);
    CHECK(answer[0], 2);
    CHECK(read_text("", 0, FERRY_CALLS, METER_TEXT_NUMBERS), 21);
    CHECK(METER_TEXT_CALLS, 8184);
    CHECK(METER_TEXT_BYTES, 65536);
}

/* ---- counts and codes */

static void clear_answer(void)
{
    size_t i;

    for (i = 0; i <= METER_STATEMENT_NUMBERS; i++)
        answer[i] = UNTOUCHED;
}

/* One call with a number of the answer too few: it is no call. With just enough it writes these and no more. */
static void check_count(uint64_t (*call)(size_t answer_numbers), size_t count)
{
    clear_answer();
    CHECK(call(count - 1), METER_BAD_ARGUMENT);
    CHECK(answer[0], UNTOUCHED);
    CHECK(call(count), METER_ACCEPTED);
    CHECK(answer[count - 1] == UNTOUCHED, 0);
    CHECK(answer[count], UNTOUCHED);
}

static uint64_t use_with(size_t n)
{
    return meter_use(account, METER_ACCOUNT_NUMBERS, METER_DATA, 1, answer, n);
}

static uint64_t afford_with(size_t n)
{
    return meter_afford(account, METER_ACCOUNT_NUMBERS, METER_DATA, answer, n);
}

static uint64_t run_with(size_t n)
{
    return meter_run(account, METER_ACCOUNT_NUMBERS, file, FERRY_BYTES, answer, n);
}

static uint64_t statement_with(size_t n)
{
    return meter_statement(file, FERRY_BYTES, answer, n);
}

static uint64_t read_with(size_t n)
{
    return meter_read(file, FERRY_BYTES, answer, n);
}

static uint64_t find_with(size_t n)
{
    return meter_find(file, FERRY_BYTES, 2, answer, n);
}

static uint64_t write_with(size_t n)
{
    return write_ferry(FERRY_BYTES, n);
}

static uint64_t call_with(size_t n)
{
    return meter_call(file + 64, 48, 0, answer, n);
}

static uint64_t caps_with(size_t n)
{
    return meter_caps(1461, answer, n);
}

static uint64_t text_write_with(size_t n)
{
    return write_text(FERRY_TEXT, n);
}

static uint64_t text_read_with(size_t n)
{
    return read_text(ferry_text, FERRY_TEXT, FERRY_CALLS, n);
}

static void answer_counts(void)
{
    check_count(use_with, METER_USE_NUMBERS);
    check_count(afford_with, METER_AFFORD_NUMBERS);
    check_count(run_with, METER_RUN_NUMBERS);
    check_count(statement_with, METER_STATEMENT_NUMBERS);
    check_count(read_with, METER_READ_NUMBERS);
    check_count(find_with, METER_FIND_NUMBERS);
    check_count(write_with, METER_WRITE_NUMBERS);
    check_count(call_with, METER_CALL_NUMBERS);
    check_count(caps_with, METER_CAPS_NUMBERS);
    check_count(text_write_with, METER_TEXT_NUMBERS);
    check_count(text_read_with, METER_TEXT_NUMBERS);
}

static void other_counts(void)
{
    CHECK(meter_is_sound(account, METER_ACCOUNT_NUMBERS), METER_ACCEPTED);
    CHECK(meter_is_sound(account, METER_ACCOUNT_NUMBERS - 1), 0);
    CHECK(meter_is_sound(account, METER_ACCOUNT_NUMBERS + 1), 0);
    CHECK(meter_next_day(account, METER_ACCOUNT_NUMBERS + 1), 0);
    CHECK(meter_open(account, METER_ACCOUNT_NUMBERS + 1, ferry_plan, METER_PLAN_NUMBERS), 0);
    CHECK(meter_open(account, METER_ACCOUNT_NUMBERS, ferry_plan, METER_PLAN_NUMBERS - 1), METER_BAD_ARGUMENT);
    CHECK(account[METER_ACCOUNT_NUMBERS], UNTOUCHED);
}

static void unknown_codes(void)
{
    CHECK(enter(METER_ELSEWHERE + 1), METER_BAD_ARGUMENT);
    CHECK(use(METER_SMS + 1, 1), METER_BAD_ARGUMENT);
    CHECK(use(METER_SMS, 0), 4);
    account[METER_AT_MARKS] = 8;
    CHECK(use(METER_SMS + 1, 1), METER_BAD_ARGUMENT);
    CHECK(use(METER_SMS, 0), 0);
    CHECK(top_up(0), 0);
}

int main(void)
{
    account[METER_ACCOUNT_NUMBERS] = UNTOUCHED;
    ferry_calls();
    ferry_places();
    rest_of_ferry_day();
    bundles();
    service_ends_surcharged(METER_DATA, 0);
    service_ends_surcharged(METER_INCOMING, 1);
    service_ends_surcharged(METER_OUTGOING, 1);
    surcharged_messages();
    ferry_file();
    ferry_lines();
    answer_counts();
    other_counts();
    unknown_codes();
    printf("header: %lu checks, %lu fail\n", checks, failures);
    return failures > 0;
}
