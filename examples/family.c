/* A parent and its child: what each writes into its own memory the other does not see, and what either
   writes into shared pages both see. */
#include "oscar.h"

int main(void)
{
    uint64_t *shared = oscar_share(1);
    uint64_t *own = oscar_malloc(sizeof *own);
    *own = 5;
    int64_t child = oscar_fork();
    if (child == 0) {
        *own = 6;
        *shared = 7;
        return *own;
    }
    if (child < 0) {
        print("there is no room for a child\n");
        return 1;
    }
    int64_t status = oscar_wait(child);
    print("child ");
    print_number(child);
    print(" ended with ");
    print_number(status);
    print("\nown ");
    print_number(*own);
    print(", shared ");
    print_number(*shared);
    print("\n");
    own = oscar_realloc(own, 100);
    print("own after realloc ");
    print_number(*own);
    print("\n");
    oscar_free(own);
    return 0;
}
