/* The lullaby through the C boundary: the first breach, and the normal text. examples/run builds and runs it. */
#include "checker.h"
#include <stdio.h>
#include <string.h>

static const char text[] =
    "01001000\n" /* row 0: the line */
    "01001100\n" /* row 1: the publisher */
    "01001200\n" /* row 2: yen */
    "01001300\n" /* row 3: pounds */
    "0100200100\n" /* row 4: the line's payee */
    "0100210100\n" /* row 5: the line's currency */
    "0100210101\n" /* row 6: the publisher's currency */
    "020401\n" /* the line's payee is the publisher */
    "020503\n" /* the line's currency is pounds */
    "020602\n" /* the publisher's currency is yen */
    "030203\n" /* yen and pounds differ */
    "0400\n" /* x, any row */
    "0401\n" /* y, any row */
    "0500200100\n" /* x's payee */
    "0500210100\n" /* x's currency */
    "0500210101\n" /* y's currency */
    "060201\n" /* x's payee is y */
    "070304\n"; /* and their currencies differ */

int main(void)
{
    uint16_t rows[4];
    uint64_t reply = checker_find((const uint8_t *)text, strlen(text), rows);
    if (checker_kind(reply) == 8) {
        printf("breach:");
        for (unsigned v = 0; v < checker_number(reply); v++)
            printf(" variable %u is row %u%s", v, rows[v], v + 1 < checker_number(reply) ? "," : "\n");
    } else if (checker_kind(reply) == 9) {
        printf("none\n");
    } else {
        printf("refusal %u at %u, byte %u\n", checker_number(reply), checker_place(reply), checker_offset(reply));
    }
    uint8_t space[7898];
    reply = checker_normalise((const uint8_t *)text, strlen(text), space, sizeof space);
    if (checker_kind(reply) == 0)
        fwrite(space, 1, checker_written(reply), stdout);
    return 0;
}
