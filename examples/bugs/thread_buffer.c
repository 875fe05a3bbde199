/* A thread that outlives its buffer. The main thread sees that the sum has got to 100, frees the numbers,
   and waits only then for the thread that still adds them up. */
#include "oscar.h"

#define COUNT 8

static uint64_t stack[128] __attribute__((aligned(16)));
static uint64_t sum;

static uint64_t add_up(void *argument)
{
    const uint64_t *numbers = argument;
    for (int round = 0; round < 1000; round++)
        for (int i = 0; i < COUNT; i++)
            oscar_fetch_add(&sum, numbers[i]);
    return 0;
}

int main(void)
{
    uint64_t *numbers = oscar_malloc(COUNT * sizeof *numbers);
    for (uint64_t i = 0; i < COUNT; i++)
        numbers[i] = i + 1;
    print("a thread adds up\n");
    int64_t thread = oscar_thread(stack + 128, add_up, numbers);
    while (oscar_fetch_add(&sum, 0) < 100)
        ;
    oscar_free(numbers); /* wrong: the thread still reads them */
    oscar_join(thread);
    print_number(sum);
    print("\n");
    return 0;
}
