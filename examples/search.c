/* Finds all places of some patterns in a text, by the method of Knuth, Morris and Pratt. */
#include "oscar.h"

static const char text[] =
    "how much wood would a woodchuck chuck if a woodchuck could chuck wood? "
    "a woodchuck would chuck all the wood he could chuck if a woodchuck could chuck wood; "
    "abracadabra abracadabracadabra aaaaaa";

static const char *const patterns[] = {"wood", "chuck", "a woodchuck could", "abracadabra", "aaa", "?", "would chuck wood"};

/* border[i] is the length of the longest text that the pattern's first i bytes both begin and end
   with, other than all of them. */
static uint16_t border[64];

static size_t find_borders(const char *pattern)
{
    size_t length = 0;
    size_t matched = 0;
    for (; pattern[length] != 0; length++) {
        if (length > 0) {
            while (matched > 0 && pattern[length] != pattern[matched])
                matched = border[matched];
            if (pattern[length] == pattern[matched])
                matched++;
        }
        border[length + 1] = matched;
    }
    return length;
}

static size_t print_places(const char *pattern)
{
    size_t length = find_borders(pattern);
    size_t matched = 0;
    size_t places = 0;
    print(pattern);
    print(":");
    for (size_t at = 0; text[at] != 0; at++) {
        while (matched > 0 && text[at] != pattern[matched])
            matched = border[matched];
        if (text[at] == pattern[matched])
            matched++;
        if (matched == length) {
            print(" ");
            print_number(at + 1 - length);
            matched = border[matched];
            places++;
        }
    }
    print("\n");
    return places;
}

/* The status is the number of all places. */
int main(void)
{
    size_t places = 0;
    for (size_t i = 0; i < sizeof patterns / sizeof patterns[0]; i++)
        places += print_places(patterns[i]);
    return places;
}
