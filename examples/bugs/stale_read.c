/* A stale read. Alice's session is freed, and her secret is printed after that. On a heap that uses memory
   again, Bob's session lies where hers was, and his secret is printed. */
#include "oscar.h"

struct session {
    char name[16];
    char secret[16];
};

static void copy(char *to, const char *from)
{
    while ((*to++ = *from++) != 0)
        ;
}

static struct session *open_session(const char *name, const char *secret)
{
    struct session *session = oscar_malloc(sizeof *session);
    copy(session->name, name);
    copy(session->secret, secret);
    return session;
}

int main(void)
{
    struct session *alice = open_session("alice", "sesame");
    print("alice logs out\n");
    oscar_free(alice);
    open_session("bob", "hunter2");
    print("bob logs in\n");
    print(alice->secret); /* wrong: the session was freed */
    print("\n");
    return 0;
}
