/* A use after realloc. A pointer to the best of some marks is kept while the list of marks grows. A grown
   list has another address, so the pointer is stale. */
#include "oscar.h"

int main(void)
{
    uint64_t *marks = oscar_malloc(4 * sizeof *marks);
    for (uint64_t i = 0; i < 4; i++)
        marks[i] = 60 + 10 * i;
    uint64_t *best = &marks[3];
    print_number(*best);
    print(" is the best mark\n");
    marks = oscar_realloc(marks, 8 * sizeof *marks);
    marks[4] = 75;
    print_number(*best); /* wrong: the list is elsewhere */
    print(" still is\n");
    oscar_free(marks);
    return 0;
}
