/* The roaming meter as a library for a box, in C99.
 *
 * An account is METER_ACCOUNT_NUMBERS numbers in the caller's memory: uint64_t account[METER_ACCOUNT_NUMBERS]. The
 * numbers are those of docs/LIBRARY.md, and enum meter_account_place names their places. A call changes them where they
 * stand. The meter keeps nothing between two calls, allocates nothing and prints nothing.
 *
 * Each list is handed over as a pointer and the count of its elements. The pointer has to be valid for that count and
 * aligned for its type, and no list that a call writes may overlap another list of the same call: no call can check
 * this. With a count of 0 the pointer is not followed, but it may not be null.
 *
 * Every function returns a number:
 *   METER_ACCEPTED       the call was accepted; its answer stands in the first numbers of `answer`, and those after
 *                        them stay;
 *   METER_BAD_ARGUMENT   the arguments are of no call: an unknown call, place or kind, a plan that is not seven
 *                        numbers, or an `answer` with fewer numbers than the call gives; it comes before any refusal;
 *   METER_END            meter_call alone: no further call;
 *   any other number     the call was refused: the number in the README's list, 0 among them. It is the first that
 *                        holds, in the order that the function's comment gives.
 * Unless it returns METER_ACCEPTED a function changes nothing: every number of the account, every card, every number of
 * `answer`, every element of a list and every byte of a buffer stays. The one exception is meter_text_read, which puts
 * the number of the line into `answer` where it returns 22.
 *
 * Refusal 0, of every function with an account, is for numbers that are no sound account: a count other than
 * METER_ACCOUNT_NUMBERS, a number that stands for no form, place or mark, or figures that contradict each other.
 */
#ifndef METER_H
#define METER_H

#include <stddef.h>
#include <stdint.h>

#ifdef __cplusplus
extern "C" {
#endif

/* Returns that are no refusal. No refusal has such a number. */
#define METER_ACCEPTED 1000u
#define METER_BAD_ARGUMENT 1001u
#define METER_END 1002u

/* How many numbers an account, a plan, and the answer of each function have. */
#define METER_ACCOUNT_NUMBERS 1649u
#define METER_PLAN_NUMBERS 7u
#define METER_USE_NUMBERS 5u
#define METER_AFFORD_NUMBERS 1u
#define METER_RUN_NUMBERS 1u
#define METER_STATEMENT_NUMBERS 9u
#define METER_READ_NUMBERS 8u
#define METER_FIND_NUMBERS 2u
#define METER_WRITE_NUMBERS 1u
#define METER_CALL_NUMBERS 3u
#define METER_CAPS_NUMBERS 5u
#define METER_TEXT_NUMBERS 1u

/* Kinds of use: kB of data, outgoing seconds, incoming seconds, SMS sent. */
enum meter_kind { METER_DATA, METER_OUTGOING, METER_INCOMING, METER_SMS };

/* Places to register at. */
enum meter_place { METER_HOME, METER_ZONE, METER_ELSEWHERE };

/* Forms of a plan: prepaid, bundle with a volume, bundle without volume limit. */
enum meter_form { METER_PREPAID, METER_BUNDLE, METER_UNLIMITED };

/* Where the numbers of an account stand. Four numbers in a row are kB, outgoing seconds, incoming seconds, SMS. */
enum meter_account_place {
    METER_AT_LOG = 0,           /* 123 days of 13 numbers, newest first: marks, then units home, zone, elsewhere */
    METER_AT_PLAN = 1599,       /* form, start day, points per GB, per minute, per SMS, fee, volume */
    METER_AT_DAY = 1606,        /* 0 is 1 January 2022 */
    METER_AT_PLACE = 1607,      /* 0 none, 1 home, 2 zone, 3 elsewhere */
    METER_AT_CREDIT = 1608,
    METER_AT_PAID = 1609,
    METER_AT_HOME_CHARGES = 1610,
    METER_AT_SURCHARGES = 1611,
    METER_AT_LIFETIME = 1612,   /* four: units used, seconds as spoken */
    METER_AT_CHARGED_SECONDS = 1616,
    METER_AT_PRICED = 1617,     /* four */
    METER_AT_SURCHARGED = 1621, /* four */
    METER_AT_CAP_SUMS = 1625,   /* four: sums of cap x surcharged units */
    METER_AT_MONTHLY = 1629,    /* kB of a bundle's month at home and in the zone */
    METER_AT_ROAMED = 1630,     /* zone kB counted against the limit */
    METER_AT_LIMIT = 1631,      /* zone data limit: 0 none, else one more than its kB */
    METER_AT_MARKS = 1632,      /* today's places: 1 home, 2 zone, 4 elsewhere, added up */
    METER_AT_TODAY = 1633,      /* twelve: units home, zone, elsewhere */
    METER_AT_LOGGED = 1645,     /* how many days of the log are filled */
    METER_AT_SERVICES = 1646    /* three: data, calls, SMS; 0 clear, 1 surcharged, else two more than the day changes
                                   since the warning */
};

/* Opens an account under a plan, over whatever numbers stand there: form, start day, points per GB, per outgoing minute
 * and per SMS, fee, volume. Refusals: 0 (the count of the account's numbers alone), 1, 17, 18, 2. */
uint64_t meter_open(uint64_t *account, size_t account_numbers, const uint64_t *plan, size_t plan_numbers);

/* Registers the box at a place. Refusals: 0. */
uint64_t meter_register(uint64_t *account, size_t account_numbers, uint64_t place);

/* Uses n units of a kind. Answer: points taken as home price, points taken as surcharge, units that bore a surcharge,
 * units charged, and 1 where the zone data limit is now used up, else 0. Refusals: 0, 3, 4, 5, 6. */
uint64_t meter_use(uint64_t *account, size_t account_numbers, uint64_t kind, uint64_t n, uint64_t *answer,
                   size_t answer_numbers);

/* Adds points to the credit. Refusals: 0, 7, 8. */
uint64_t meter_top_up(uint64_t *account, size_t account_numbers, uint64_t points);

/* Ends the day. Refusals: 0, 9. */
uint64_t meter_next_day(uint64_t *account, size_t account_numbers);

/* Answer: the largest n for which meter_use of the kind is accepted, 0 if there is none. Refusals: 0, 3. */
uint64_t meter_afford(const uint64_t *account, size_t account_numbers, uint64_t kind, uint64_t *answer,
                      size_t answer_numbers);

/* METER_ACCEPTED for the numbers of a sound account, else 0. */
uint64_t meter_is_sound(const uint64_t *account, size_t account_numbers);

/* A family box: one account, which all cards share, and a list of 1 to METER_BOX_CARDS cards beside it in the caller's
 * memory. A card is named by its place in the list, from 0. Every call gets the whole list, and the same list with the
 * same account each time: a use changes the card that it names, the first day of a month clears the kB of the month of
 * every card, and no call changes anything else of the cards. Refusal 0 is also for cards whose lifetime units do not
 * add up to the account's in each kind, or of which one has more kB in the month than in its life or in its allowance,
 * or an allowance of over 1,000,000,000,000. A list of any length and any numbers is answered. */
#define METER_BOX_CARDS 16u

typedef struct meter_card {
    uint64_t kb, outgoing, incoming, sms; /* lifetime units, seconds as spoken */
    uint64_t monthly;                     /* kB of the month, at every place */
    uint64_t allowance;                   /* kB that it may use in a month, at most 1,000,000,000,000 */
} meter_card;

/* What meter_box_call is asked for. */
enum meter_box_action {
    METER_BOX_REGISTER, /* which: the place */
    METER_BOX_USE,      /* card, which: the kind, n: the units */
    METER_BOX_TOP_UP,   /* n: the points */
    METER_BOX_NEXT_DAY,
    METER_BOX_AFFORD    /* card, which: the kind */
};

/* Opens a box under a plan, as meter_open does, for cards with the allowances that stand in the list; their other
 * numbers become 0. Refusals: 0 (the count of the account's numbers alone), 1, 17, 18, 2, 19 (no card, or over
 * METER_BOX_CARDS), 20 (an allowance of over 1,000,000,000,000). */
uint64_t meter_box_open(uint64_t *account, size_t account_numbers, meter_card *cards, size_t card_count,
                        const uint64_t *plan, size_t plan_numbers);

/* A call on a box, by its number in enum meter_box_action; what a call has no use for is not looked at. Answers are
 * those of meter_use and meter_afford. Refusals: 0, then 19 (no such card in a use or Afford, or over METER_BOX_CARDS
 * cards in any call), then those of the account's call, and in a use, after 5 and before 6, 20 (data beyond the card's
 * monthly allowance). */
uint64_t meter_box_call(uint64_t *account, size_t account_numbers, meter_card *cards, size_t card_count, uint64_t call,
                        size_t card, uint64_t which, uint64_t n, uint64_t *answer, size_t answer_numbers);

/* The calls by their names. */
static inline uint64_t meter_box_register(uint64_t *account, size_t account_numbers, meter_card *cards,
                                          size_t card_count, uint64_t place) {
    uint64_t none = 0;
    return meter_box_call(account, account_numbers, cards, card_count, METER_BOX_REGISTER, 0, place, 0, &none, 0);
}

static inline uint64_t meter_box_use(uint64_t *account, size_t account_numbers, meter_card *cards, size_t card_count,
                                     size_t card, uint64_t kind, uint64_t n, uint64_t *answer, size_t answer_numbers) {
    return meter_box_call(account, account_numbers, cards, card_count, METER_BOX_USE, card, kind, n, answer,
                          answer_numbers);
}

static inline uint64_t meter_box_top_up(uint64_t *account, size_t account_numbers, meter_card *cards,
                                        size_t card_count, uint64_t points) {
    uint64_t none = 0;
    return meter_box_call(account, account_numbers, cards, card_count, METER_BOX_TOP_UP, 0, 0, points, &none, 0);
}

static inline uint64_t meter_box_next_day(uint64_t *account, size_t account_numbers, meter_card *cards,
                                          size_t card_count) {
    uint64_t none = 0;
    return meter_box_call(account, account_numbers, cards, card_count, METER_BOX_NEXT_DAY, 0, 0, 0, &none, 0);
}

static inline uint64_t meter_box_afford(uint64_t *account, size_t account_numbers, meter_card *cards,
                                        size_t card_count, size_t card, uint64_t kind, uint64_t *answer,
                                        size_t answer_numbers) {
    return meter_box_call(account, account_numbers, cards, card_count, METER_BOX_AFFORD, card, kind, 0, answer,
                          answer_numbers);
}

/* Makes the calls of a trip file on an account, one after the other, as the functions above do; a call that is refused
 * changes nothing, and the next one follows. The account keeps its own plan; that of the file is only read. Answer: how
 * many of the calls were refused. Refusals: 0, then those of meter_read. */
uint64_t meter_run(uint64_t *account, size_t account_numbers, const uint8_t *file, size_t file_bytes, uint64_t *answer,
                   size_t answer_numbers);

/* The statement of a trip file. Answer: day, paid in, credit, home charges, surcharges, zone data limit (0 none, else
 * one more than its kB), zone kB counted against it, surcharged kB, refused calls. Refusals: those of meter_read. */
uint64_t meter_statement(const uint8_t *file, size_t file_bytes, uint64_t *answer, size_t answer_numbers);

/* Reads a trip file. Answer: the plan's seven numbers, and how many calls there are. Refusals: 10, 11, 12, 13, 14, 15,
 * 1, 17, 18, 2. */
uint64_t meter_read(const uint8_t *file, size_t file_bytes, uint64_t *answer, size_t answer_numbers);

/* Finds the section of a kind in a trip file. Answer: where it starts, in bytes from the file's first, and how many
 * bytes it has. Refusals: 10, 11, 12, 13. */
uint64_t meter_find(const uint8_t *file, size_t file_bytes, uint32_t kind, uint64_t *answer, size_t answer_numbers);

/* Writes the trip file of a plan and of calls, each a code and a number, into a buffer; the bytes after it stay.
 * Answer: how many bytes it has. Refusals: 1, 17, 18, 2, 14, 15, 16. */
uint64_t meter_write(const uint64_t *plan, size_t plan_numbers, const uint32_t *codes, size_t code_count,
                     const uint32_t *numbers, size_t number_count, uint8_t *buffer, size_t buffer_bytes,
                     uint64_t *answer, size_t answer_numbers);

/* The call that stands at a position, in bytes, of a calls section, unchecked. Answer: code, number, and the position
 * after it. METER_END where fewer than 8 bytes remain. */
uint64_t meter_call(const uint8_t *section, size_t section_bytes, size_t position, uint64_t *answer,
                    size_t answer_numbers);

/* The most calls and bytes that a text of calls can have. */
#define METER_TEXT_CALLS 8184u
#define METER_TEXT_BYTES 65536u

/* Reads a text of calls into two lists, the codes and numbers of a calls section; the elements after them stay. A line
 * is a name, a comma, a number in decimal with no zeros in front, and a line feed; the names of the codes 1 to 7 are
 * register, data, out, in, sms, topup, nextday. Answer: how many calls there are; where it returns 22, the number of
 * the first line that is not of this form, from 1. Refusals: 21 (no line, over METER_TEXT_CALLS lines or over
 * METER_TEXT_BYTES bytes; an unended last line counts), 22, 16 (a list with fewer elements than there are lines). */
uint64_t meter_text_read(const uint8_t *text, size_t text_bytes, uint32_t *codes, size_t code_count, uint32_t *numbers,
                         size_t number_count, uint64_t *answer, size_t answer_numbers);

/* Writes calls, each a code and a number, as such a text into a buffer; the bytes after it stay. Answer: how many bytes
 * it has. Refusals: 14 (as meter_write), 15, 21 (over METER_TEXT_BYTES bytes), 16. */
uint64_t meter_text_write(const uint32_t *codes, size_t code_count, const uint32_t *numbers, size_t number_count,
                          uint8_t *text, size_t text_bytes, uint64_t *answer, size_t answer_numbers);

/* The wholesale caps of a day. Answer: points per GB, per outgoing minute, per incoming minute and per SMS, and how
 * many rows of the table were read to find them. */
uint64_t meter_caps(uint64_t day, uint64_t *answer, size_t answer_numbers);

#ifdef __cplusplus
}
#endif

#endif
