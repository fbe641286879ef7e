/* Checks a sheet and plans over it, from C. */
#include "deqibur.h"

#include <stdio.h>
#include <string.h>

/* Routes from 0 to 3 lead by 1 (fee 4, delay 9), by 2 (fee 5, delay 3) and straight (fee 9, delay 1). */
static const char sheet[] =
    "network,4\n"
    "leg,0,1,2,3,4,0\n"
    "leg,1,3,2,1,5,0\n"
    "leg,0,2,4,2,1,0\n"
    "leg,2,3,1,2,2,0\n"
    "leg,0,3,9,1,1,0\n"
    "plan,7,0,3,9\n"
    "plan,7,0,3,8\n"
    "plan,12,0,3,0\n"
    "plan,12,3,3,0\n";

/* The first leg's fee has a leading 0, which no number may have. */
static const char damaged[] =
    "network,4\n"
    "leg,0,1,02,3,4,0\n"
    "plan,7,0,3,9\n";

static void check(const char *text) {
    deqibur_sheet_check c = deqibur_check_sheet((const uint8_t *)text, strlen(text));
    printf("check number=%d line=%llu sites=%d legs=%d plans=%llu\n", c.number, (unsigned long long)c.line, c.sites, c.legs,
           (unsigned long long)c.plans);
}

static void serve(const char *text, uint32_t limit, size_t labels, uint32_t steps, size_t room) {
    deqibur_request request = {.labels = labels, .limit = limit, .steps = steps, .start = 0, .goal = 3};
    uint16_t legs[4];
    deqibur_answer a = deqibur_serve((const uint8_t *)text, strlen(text), &request, legs, room);
    printf("serve limit=%u outcome=%d number=%d line=%llu steps=%llu cost=%llu delay=%u legs=%zu", limit, a.outcome, a.number,
           (unsigned long long)a.line, (unsigned long long)a.steps, (unsigned long long)a.cost, a.delay, a.legs);
    for (size_t i = 0; i < a.legs && a.legs <= room; i++) {
        printf(" %d", legs[i]);
    }
    putchar('\n');
}

static void serve_again(uint32_t again) {
    deqibur_request request = {.labels = 1024, .limit = 9, .steps = 50000, .start = 0, .goal = 3};
    deqibur_answer a = deqibur_serve_again((const uint8_t *)sheet, strlen(sheet), &request, again);
    printf("again outcome=%d cost=%llu delay=%u legs=%zu\n", a.outcome, (unsigned long long)a.cost, a.delay, a.legs);
}

static void plan(const char *text, deqibur_allowance allowance, size_t room) {
    uint8_t output[256];
    deqibur_written w = deqibur_plan_sheet((const uint8_t *)text, strlen(text), &allowance, output, room);
    printf("plan room=%zu code=%d length=%zu\n", room, w.code, w.length);
    if (w.code == DEQIBUR_TEXT_WRITTEN) {
        fwrite(output, 1, w.length, stdout);
    }
}

int main(void) {
    const deqibur_allowance batch = {.sites = 64, .legs = 256, .labels = 1024, .steps = 50000};
    check(sheet);
    check(damaged);
    check("network,1025\n");
    serve(sheet, 9, 1024, 50000, 4);
    serve(sheet, 9, 1024, 50000, 1);
    serve(sheet, 8, 1024, 50000, 4);
    serve(sheet, 0, 1024, 50000, 4);
    serve(sheet, 9, 4, 50000, 4);
    serve(sheet, 9, 1024, 2, 4);
    serve(sheet, 9, 0, 50000, 4);
    serve(sheet, 9, 65537, 50000, 4);
    serve(sheet, 9, (size_t)-1, 50000, 4);
    serve(damaged, 9, 1024, 50000, 4);
    serve_again(3);
    plan(sheet, batch, 96);
    plan(sheet, batch, 97);
    plan(sheet, (deqibur_allowance){.sites = 4, .legs = 5, .labels = 1024, .steps = 5}, 256);
    plan(sheet, (deqibur_allowance){.sites = 4, .legs = 5, .labels = 0, .steps = 50000}, 256);
    plan(sheet, (deqibur_allowance){.sites = 4, .legs = 4, .labels = 1024, .steps = 50000}, 256);
    plan(damaged, batch, 256);
    return 0;
}
