/* Makes PAIRS pairs of malloc and free while LIVE other objects live. */
#include "oscar.h"

#ifndef LIVE
#define LIVE 10
#endif
#ifndef PAIRS
#define PAIRS 100000
#endif

int main(void)
{
    for (int i = 0; i < LIVE; i++)
        if (oscar_malloc(16) == NULL)
            return 1;
    for (int i = 0; i < PAIRS; i++) {
        uint64_t *object = oscar_malloc(24);
        if (object == NULL)
            return 2;
        *object = i;
        oscar_free(object);
    }
    return 0;
}
