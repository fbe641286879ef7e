/* The route planner for programs in C: declarations of what the crate `embed` exports.
 *
 * Nothing checks these declarations against the source; examples/embed/run builds and runs a program that uses each of them.
 *
 * What every function asks of its caller is that its pointers lead to what is declared, and nothing more. A slice is a pointer and
 * then a number of items; the pointer may not be null, even where that number is 0. A buffer that is written may not overlap
 * anything else that the call is given. No function keeps a pointer after it returns. A thread with 80 KB of stack
 * sufficed for each where it was tried.
 *
 * Fees and costs are in the unit of the sheet's fees, delays and limits in microseconds. Sites and legs are numbered from 0, and
 * lines from 1. docs/REFUSALS.md says what each number of a refusal means, docs/SHEETS.md what a sheet is.
 */
#ifndef DEQIBUR_H
#define DEQIBUR_H

#include <stddef.h>
#include <stdint.h>

#ifdef __cplusplus
extern "C" {
#endif

/* What checking a sheet comes to. `number` is 0 for a sound sheet, which has so many sites, legs and plans; otherwise it is the
 * number of the first refusal, and `line` is the line at fault. What does not apply is 0. */
typedef struct deqibur_sheet_check {
    uint64_t plans;
    uint64_t line;
    uint16_t sites;
    uint16_t legs;
    uint8_t number;
} deqibur_sheet_check;

/* Checks a sheet from its first line to its last, with room for 4,096 legs. */
deqibur_sheet_check deqibur_check_sheet(const uint8_t *sheet, size_t sheet_len);

/* What planning a sheet may use: tables for `sites` sites and `legs` legs (a network has 1,024 and 4,096 at the most), `labels` label
 * records for a search (1 to 65,536; with any other number every plan is refused by 11), a queue for as many entries, and `steps` steps
 * for all plans of the sheet together. The program `batch` has 64, 256, 1,024 and 50,000. */
typedef struct deqibur_allowance {
    size_t sites;
    size_t legs;
    size_t labels;
    uint32_t steps;
} deqibur_allowance;

/* The codes of a text that is put into a buffer. */
enum {
    DEQIBUR_TEXT_WRITTEN = 0,      /* it stands at the start of the buffer, whose rest is as it was */
    DEQIBUR_TEXT_BUFFER_SHORT = 1, /* it needs a buffer of this length; the buffer is as it was */
    DEQIBUR_TEXT_MEMORY_SHORT = 2  /* memory is short; the buffer is as it was, and the length is 0 */
};

typedef struct deqibur_written {
    size_t length;
    uint8_t code;
} deqibur_written;

/* Answers all plans of a sheet by text, in the lines of the program `batch` (docs/BATCH.md): the header, a line for each plan, and, where
 * something is refused, a last line `refuse,NUMBER,LINE`. DEQIBUR_TEXT_WRITTEN therefore does not say that the sheet is sound: look for
 * that line, or call deqibur_check_sheet first. The whole sheet is read, where `batch` reads 16,384 bytes. A call with a buffer of
 * length 0 tells how long the text is, but takes as long as any. */
deqibur_written deqibur_plan_sheet(const uint8_t *sheet, size_t sheet_len, const deqibur_allowance *allowance, uint8_t *output,
                                   size_t output_len);

/* What is asked: a route from `start` to `goal` that takes at most `limit` microseconds. The search has `labels` label records (1 to
 * 65,536; any other number is refused by 11), a queue for as many entries, and makes at most `steps` steps. */
typedef struct deqibur_request {
    size_t labels;
    uint32_t limit;
    uint32_t steps;
    uint16_t start;
    uint16_t goal;
} deqibur_request;

/* What a request came to. */
enum {
    DEQIBUR_OUTCOME_ROUTE = 1,       /* the cheapest route within the limit, and of those the fastest, has this cost, delay and legs */
    DEQIBUR_OUTCOME_NONE = 2,        /* no walk from start to goal keeps within the limit */
    DEQIBUR_OUTCOME_OPEN = 3,        /* the steps did not suffice */
    DEQIBUR_OUTCOME_STOPPED = 4,     /* the label records did not suffice (number 16) */
    DEQIBUR_OUTCOME_REFUSED = 5,     /* `number` refuses the sheet up to its first plan (1 to 7, with the line), or the request: 10 its
                                      * start or goal, 8 its limit, 11 its label records. Its goal is tested before its limit. */
    DEQIBUR_OUTCOME_MEMORY_SHORT = 6 /* there is no memory for the tables or the legs */
};

/* `legs` is how many legs the route has: fewer than the label records that were asked for. `line` is the line at fault where a line is.
 * What does not apply is 0. */
typedef struct deqibur_answer {
    uint64_t steps;
    uint64_t cost;
    uint64_t line;
    size_t legs;
    uint32_t delay;
    uint8_t outcome;
    uint8_t number;
} deqibur_answer;

/* Loads the network of a sheet, with room for 4,096 legs, and serves a request over it by the total fee. The numbers of the route's
 * legs, from its start on, are put at the start of the buffer `legs`, if it has room for all of them, as one with room for `labels` - 1
 * always has; if it has not (the answer's `legs` is above `legs_len`) it stays as it was. The plans of the sheet are not read. */
deqibur_answer deqibur_serve(const uint8_t *sheet, size_t sheet_len, const deqibur_request *request, uint16_t *legs,
                             size_t legs_len);

/* The same without a buffer for the legs, and before it so many times for nothing, all in the same tables: for measuring its speed. */
deqibur_answer deqibur_serve_again(const uint8_t *sheet, size_t sheet_len, const deqibur_request *request, uint32_t again);

#ifdef __cplusplus
}
#endif

#endif
