/* Writes 70,000 bytes by one call: 1,000 lines of 69 letters. */
#include "oscar.h"

#define LINES 1000
#define WIDTH 70

static char text[LINES * WIDTH];

int main(void)
{
    char *next = text;
    for (int line = 0; line < LINES; line++) {
        char letter = 'a' + line % 26;
        for (int column = 1; column < WIDTH; column++)
            *next++ = letter;
        *next++ = '\n';
    }
    oscar_write(text, sizeof text);
    return 0;
}
