/* Three threads and the main thread count to 400 together: once by atomic additions and once by plain ones
   under a lock. */
#include "oscar.h"

#define THREADS 3
#define ROUNDS 100

static uint64_t stacks[THREADS][128] __attribute__((aligned(16)));
static uint64_t atomic_count;
static uint64_t plain_count;
/* A page of its own: a conditional store fails after any store into the page. */
static uint64_t lock[512] __attribute__((aligned(4096)));

static uint64_t count(void *name)
{
    for (int round = 0; round < ROUNDS; round++) {
        oscar_fetch_add(&atomic_count, 1);
        oscar_lock(lock);
        plain_count++;
        oscar_unlock(lock);
    }
    return (uint64_t)name;
}

int main(void)
{
    int64_t threads[THREADS];
    for (uint64_t i = 0; i < THREADS; i++)
        threads[i] = oscar_thread(stacks[i] + 128, count, (void *)(10 * (i + 1)));
    count(NULL);
    for (int i = 0; i < THREADS; i++) {
        print("a thread answered ");
        print_number(oscar_join(threads[i]));
        print("\n");
    }
    print_number(atomic_count);
    print(" and ");
    print_number(plain_count);
    print("\n");
    return 0;
}
