/* Sorts words by quicksort, byte by byte, and prints them. */
#include "oscar.h"

static const char *words[] = {
    "walnut", "oak", "elder", "birch", "hazel", "Yew", "aspen", "rowan", "ash", "alder", "larch", "fir",
    "maple", "linden", "elm", "willow", "spruce", "pine", "beech", "ashen", "poplar", "juniper", "oak",
    "hornbeam", "hawthorn", "cherry", "chestnut", "cedar", "Cypress", "sycamore", "plane", "holly",
};

static int compare(const char *left, const char *right)
{
    while (*left != 0 && *left == *right) {
        left++;
        right++;
    }
    return (uint8_t)*left - (uint8_t)*right;
}

static void exchange(const char **left, const char **right)
{
    const char *kept = *left;
    *left = *right;
    *right = kept;
}

/* Sorts the words from first on up to the one before end. */
static void sort(const char **first, const char **end)
{
    if (end - first < 2)
        return;
    exchange(first, first + (end - first) / 2);
    const char **middle = first;
    for (const char **next = first + 1; next < end; next++)
        if (compare(*next, *first) < 0)
            exchange(++middle, next);
    exchange(first, middle);
    sort(first, middle);
    sort(middle + 1, end);
}

int main(void)
{
    size_t count = sizeof words / sizeof words[0];
    sort(words, words + count);
    for (size_t i = 0; i < count; i++) {
        print(words[i]);
        print("\n");
    }
    return 0;
}
