/* A double free. Two windows show one text, and each frees it when it closes. */
#include "oscar.h"

struct window {
    char *text;
};

static void close_window(struct window *window)
{
    print("a window closes\n");
    oscar_free(window->text); /* wrong the second time: both have the same text */
}

int main(void)
{
    char *text = oscar_malloc(100);
    struct window left = {text};
    struct window right = {text};
    close_window(&left);
    close_window(&right);
    return 0;
}
