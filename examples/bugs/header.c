/* A damaged header. A loop that runs down goes one element too far, to the word before the array, where the
   heap keeps the array's size. Nothing is seen of it until the array is freed. */
#include "oscar.h"

int main(void)
{
    uint64_t *tens = oscar_malloc(3 * sizeof *tens);
    for (int i = 3; i >= 0; i--) /* wrong: should end at 1 */
        tens[i - 1] = 10 * i;
    print_number(tens[0] + tens[1] + tens[2]);
    print("\n");
    oscar_free(tens);
    return 0;
}
