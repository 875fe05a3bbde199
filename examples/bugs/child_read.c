/* A child that reads what its parent freed. The parent drops its settings and forks after that; the copy of
   the memory that the child gets has no settings either. */
#include "oscar.h"

struct settings {
    uint64_t width;
    uint64_t height;
};

int main(void)
{
    struct settings *settings = oscar_malloc(sizeof *settings);
    settings->width = 80;
    settings->height = 24;
    print("the parent drops the settings\n");
    oscar_free(settings);
    int64_t child = oscar_fork();
    if (child == 0) {
        print_number(settings->height); /* wrong: they were freed before the child was there */
        print(" lines\n");
        return 0;
    }
    int64_t status = oscar_wait(child);
    print("the child ended with ");
    print_number(status);
    print("\n");
    return status != 0;
}
