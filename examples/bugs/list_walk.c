/* A walk over a freed list. Each node is freed before the way to the next one is read from it. */
#include "oscar.h"

struct node {
    uint64_t value;
    struct node *next;
};

int main(void)
{
    struct node *first = NULL;
    for (uint64_t value = 1; value <= 3; value++) {
        struct node *node = oscar_malloc(sizeof *node);
        node->value = value;
        node->next = first;
        first = node;
    }
    for (struct node *node = first; node != NULL; node = node->next) { /* wrong: node was freed */
        print_number(node->value);
        print("\n");
        oscar_free(node);
    }
    return 0;
}
