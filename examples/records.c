/* The lullaby as records: the same context and rule as lullaby.c, handed over as a table. examples/run builds and runs it. */
#include "checker.h"
#include <stdio.h>

static const checker_row rows[] = {
    {0x0010, 0, {0}}, /* row 0: the line */
    {0x0011, 0, {0}}, /* row 1: the publisher */
    {0x0012, 0, {0}}, /* row 2: yen */
    {0x0013, 0, {0}}, /* row 3: pounds */
    {0x0020, 1, {0}}, /* row 4: the line's payee */
    {0x0021, 1, {0}}, /* row 5: the line's currency */
    {0x0021, 1, {1}}, /* row 6: the publisher's currency */
};

static const checker_statements said = {
    .kinds = {2, 2, 2, 3}, /* three equations and a difference */
    .lefts = {4, 5, 6, 2},
    .rights = {1, 3, 2, 3},
    .count = 4,
};

static const checker_rule rule = {
    .patterns = 5,
    .kinds = {4, 4, 5, 5, 5},
    .heads = {0, 1, 0x0020, 0x0021, 0x0021}, /* x, y, x's payee, x's currency, y's currency */
    .counts = {0, 0, 1, 1, 1},
    .args = {[8] = 0, [12] = 0, [16] = 1},
    .literals = 2,
    .signs = {6, 7}, /* x's payee is y, and their currencies differ */
    .lefts = {2, 3},
    .rights = {1, 4},
};

int main(void)
{
    uint16_t places[4];
    uint64_t reply = checker_find_rows(rows, sizeof rows / sizeof *rows, &said, &rule, places);
    switch (checker_kind(reply)) {
    case 8:
        printf("breach:");
        for (unsigned v = 0; v < checker_number(reply); v++)
            printf(" variable %u is row %u%s", v, places[v], v + 1 < checker_number(reply) ? "," : "\n");
        return 0;
    case 9:
        printf("none\n");
        return 0;
    case 10:
        printf("refusal %u at %u\n", checker_number(reply), checker_place(reply));
        return 0;
    default:
        printf("not well-formed\n");
        return 0;
    }
}
