/*
 * The library `desk` from C: rules and calendar by number, and a check of a player's input. The README has the line that
 * builds it.
 *
 *     desk FILE    FILE is a binary file as ./play takes it: register, then events
 *
 * Status: 0 where the file passes, 1 where it is refused or cannot be read, 2 where the command is wrong.
 */
#include "desk.h"
#include <stdio.h>
#include <stdlib.h>

/* The largest register and file that pass have 35,238 bytes together; one byte more tells a longer input. */
enum { MOST_BYTES = 35238 };

static void rules(void) {
    /* The squeeze of examples/: class 1, latest price 1,100, cash settlement of 90 units on day 11, due on day 3. */
    printf("step on day 8: %u, on day 11: %u\n", desk_step(1, 8 - 3), desk_step(1, 11 - 3));
    printf("ceiling: %llu cents\n", (unsigned long long)desk_ceiling(1, 1100));
    /* Positions 2 and 3 are the longs in its pieces, with reference prices 1,000 and 1,200. */
    printf("cash price: %llu cents\n", (unsigned long long)desk_cash_price(1, 1200, 1200, 1100));
    printf("fee: %llu cents\n", (unsigned long long)desk_cash_fee(90 * 1100));
    printf("fine for the award of 40: %llu cents\n", (unsigned long long)desk_award_fine(1, 40 * 1100));
    printf("late fine on 120 units: %llu cents\n", (unsigned long long)desk_late_fine(120 * 1100));
}

static void calendar(void) {
    /* Opened on 1 January 2026; the first of January is a holiday. */
    static const uint8_t holidays[] = {20260101 & 255, 20260101 >> 8 & 255, 20260101 >> 16 & 255, 20260101 >> 24};
    uint64_t date = desk_day_to_date(20260101, holidays, sizeof holidays, 3);
    uint64_t day = desk_date_to_day(20260101, holidays, sizeof holidays, 20260106);
    printf("business day 3: %u\n", desk_quantity(date));
    printf("2026-01-06: business day %u\n", desk_quantity(day));
    /* A Saturday is no business day. Without holidays the list is NULL with length 0. */
    uint32_t saturday = desk_refusal(desk_date_to_day(20260101, NULL, 0, 20260110));
    printf("2026-01-10: refused with %u, %s\n", saturday, desk_reason(saturday));
}

/* Says what the answer is and whether it is a refusal. */
static int refused(const char *part, uint64_t answer) {
    uint32_t number = desk_refusal(answer);
    if (number == 0) {
        printf("%s: %u\n", part, desk_quantity(answer));
        return 0;
    }
    fprintf(stderr, "%s: refused with %u, %s\n", part, number, desk_reason(number));
    return 1;
}

/* The register is as long as its own count says, if so much is there; the file is all the rest. */
static int check(const uint8_t *input, size_t length) {
    size_t count = length < 2 ? 0 : input[0] + 256u * input[1];
    size_t end = 2 + 13 * count;
    size_t known = end < length ? end : length;
    return refused("securities", desk_register(input, known)) || refused("events", desk_file(input + known, length - known));
}

int main(int arguments, char **words) {
    static uint8_t input[MOST_BYTES + 1];
    if (arguments != 2) {
        fprintf(stderr, "usage: desk FILE\n");
        return 2;
    }
    FILE *file = fopen(words[1], "rb");
    if (!file) {
        perror(words[1]);
        return 1;
    }
    size_t length = fread(input, 1, sizeof input, file);
    int failed = ferror(file);
    fclose(file);
    if (failed) {
        fprintf(stderr, "%s: it cannot be read\n", words[1]);
        return 1;
    }
    rules();
    calendar();
    int status = check(input, length);
    if (fflush(stdout) != 0) {
        perror("standard output");
        return 1;
    }
    return status;
}
