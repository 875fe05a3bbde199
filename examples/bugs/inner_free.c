/* A free of an inner pointer. The spaces before a word are skipped by moving the pointer to the text, and
   then the moved pointer is freed in place of the one that malloc answered. */
#include "oscar.h"

#define LENGTH 8

int main(void)
{
    const char *line = "   word";
    char *text = oscar_malloc(LENGTH);
    for (int i = 0; i < LENGTH; i++)
        text[i] = line[i];
    while (*text == ' ')
        text++;
    print(text);
    print("\n");
    oscar_free(text); /* wrong: the object starts three bytes before */
    return 0;
}
