/* Hands a script to Vatcowslip, and prints its listing. */
#include <inttypes.h>
#include <stdio.h>

#include "vatcowslip.h"

/* Three points: 1 comes at least 20 ms after 0, 2 at least 15 ms after 1, and 2 at most 40 ms after 0. */
static const char script[] =
    "T 3\n"
    "P 0 1 -20 0\n"
    "P 1 2 -15 0\n"
    "W 2\n"
    "P 2 0 40 0\n"
    "Q 2 1 10 0\n"
    "P 0 1 -20 0\n"
    "P 1 2 -15 3\n"
    "W 3\n";

/* 64 bytes for each of the script's nine lines */
static uint8_t listing[64 * 9];

int main(void) {
    /* the 0 that ends a C string is no byte of the script */
    int64_t length = vatcowslip_list((const uint8_t *)script, sizeof script - 1, listing, sizeof listing);
    if (length < 0) {
        fprintf(stderr, "refused: fault %" PRId64 "\n", -length);
        return 1;
    }
    return fwrite(listing, 1, (size_t)length, stdout) == (size_t)length ? 0 : 1;
}
