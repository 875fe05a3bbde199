/* A stale write. A job is freed when it ends, and is marked as done after that. On a heap that uses memory
   again, the mark falls on the next job, which never ran. */
#include "oscar.h"

struct job {
    uint64_t number;
    uint64_t done;
};

static struct job *new_job(uint64_t number)
{
    struct job *job = oscar_malloc(sizeof *job);
    job->number = number;
    return job;
}

int main(void)
{
    struct job *first = new_job(1);
    print("job 1 ends\n");
    oscar_free(first);
    struct job *second = new_job(2);
    print("job 2 waits\n");
    first->done = 1; /* wrong: the job was freed */
    print(second->done ? "job 2 is done\n" : "job 2 is not done\n");
    return 0;
}
