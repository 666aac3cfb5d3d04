/*
 * The static library `desk` of the fails book: `rt lib`, run in crates/desk, writes crates/desk/out/libdesk.a.
 *
 * Every function is proved to be its definition for all numbers and bytes, so none has a precondition on them. What C has to
 * keep to:
 *
 * - A slice of bytes is a pointer and a length. With length 0 the pointer is not followed and may be NULL; otherwise it points
 *   to so many bytes that stay readable (of a page: writable) for the time of the call. Nothing is kept after it.
 * - A page must not overlap the bytes that are read in the same call. Two slices that are only read may overlap.
 * - There is no state, so functions may be called from several threads at once, each with pages of its own.
 * - Nothing is allocated. Measured on x86-64, built with an older kit than today's, desk_page takes some 180 KB of stack, desk_copy_file some 70 KB and every other
 *   function under 5 KB.
 *
 * Functions that can refuse answer one number, which desk_refusal and desk_quantity take apart; desk_page answers in a way of
 * its own. Refusals are those of docs/FORMAT.md; a refused call changes nothing.
 */
#ifndef DESK_H
#define DESK_H

#include <stddef.h>
#include <stdint.h>

#ifdef __cplusplus
extern "C" {
#endif

/* The refusal number of an answer, 0 for none, and its quantity, which is 0 where the call is refused. */
static inline uint32_t desk_refusal(uint64_t answer) { return (uint32_t)(answer >> 32); }
static inline uint32_t desk_quantity(uint64_t answer) { return (uint32_t)answer; }

/* Why a function of this library refuses, in words. */
static inline const char *desk_reason(uint64_t refusal) {
    switch (refusal) {
    case 1: return "the register's count or length is wrong";
    case 2: return "a class is not 1 to 3";
    case 3: return "an ISIN is malformed";
    case 4: return "an ISIN stands earlier in the register";
    case 5: return "the file's count, width or length is wrong";
    case 6: return "a kind is not 1 to 10";
    case 7: return "a spare byte is not zero";
    case 27: return "a date is invalid or outside 2000 to 2099";
    case 28: return "the holidays are more than 64, or not strictly ascending";
    case 29: return "no business day from day 1 to 9,999";
    case 30: return "the day falls after 2099";
    case 31: return "the page is too short for its positions";
    default: return "no refusal of this library";
    }
}

/* The step that a class allows r days after the delivery day besides delivery: 4 attempt, 8 cash settlement, 0 none. */
uint8_t desk_step(uint8_t class_of_security, uint16_t r);

/* The ceiling of an auction, in cents. A class that is not 1 to 3 has none: 0. */
uint64_t desk_ceiling(uint8_t class_of_security, uint32_t latest_price);

/* The price of a unit in a cash settlement, in cents, one for all its pieces: by the reference price of its short, the
 * highest reference price among the longs in its pieces, and the latest price. */
uint64_t desk_cash_price(uint8_t class_of_security, uint32_t short_reference_price,
                         uint32_t highest_long_reference_price, uint32_t latest_price);

/* A quotient rounded half up; a divisor of 0 gives 0. */
uint64_t desk_rounded(uint64_t value, uint32_t divisor);

/* The fee for a cash settlement, the fine for an award that was not confirmed and the fine for a day of being late, on a
 * value in cents. */
uint64_t desk_cash_fee(uint64_t value);
uint64_t desk_award_fine(uint8_t class_of_security, uint64_t value);
uint64_t desk_late_fine(uint64_t value);

/* Refusals 1 to 4 of a register, or the number of its securities. */
uint64_t desk_register(const uint8_t *bytes, size_t length);

/* Dates are numbers yyyymmdd, holidays four bytes each, a little-endian date, ascending.
 * Refusals 27 to 30, or the date of a business day; refusals 27 to 29, or the number of the business day that a date is. */
uint64_t desk_day_to_date(uint32_t opening, const uint8_t *holidays, size_t length, uint32_t day);
uint64_t desk_date_to_day(uint32_t opening, const uint8_t *holidays, size_t length, uint32_t date);

/* Refusals 5 to 7 of an event file, or the number of its events. */
uint64_t desk_file(const uint8_t *bytes, size_t length);

/* The file read and written into the page's first bytes: refusals 5 to 7, or how many bytes were written. The bytes after
 * them stay as they were, and so does the whole page where the call is refused. */
uint64_t desk_copy_file(const uint8_t *bytes, size_t length, uint8_t *page, size_t page_length);

/* The bytes of a line of the desk's page, its line feed among them, and of a page with room for every book, which has at most
 * 1,024 positions. */
enum { DESK_PAGE_LINE = 81, DESK_PAGE_BYTES = 1024 * 81 };

/* The file played on a new book, and the positions at its end written into the page's first bytes, a line each by rising
 * number; docs/FORMAT.md has the columns. The register's length is exact: 2 bytes and 13 for each security.
 *
 * The answer is one plain number, which desk_refusal and desk_quantity do not take apart: how many bytes were written, 0 or a
 * multiple of 81, or else the refusal. Refusals 1 to 4 are the register's, 5 to 7 the file's, and then 31 where the page has
 * under 81 bytes a position; a book without positions asks for no page. An event that the book refuses is no refusal of the
 * call. The page's bytes after the last line stay as they were, and so does the whole page where the call is refused.
 *
 * The page must overlap neither the register nor the file. */
uint64_t desk_page(const uint8_t *register_bytes, size_t register_length, const uint8_t *file, size_t file_length,
                   uint8_t *page, size_t page_length);

#ifdef __cplusplus
}
#endif

#endif
