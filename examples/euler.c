/* Prints e with 60 digits behind the point: 1 + 1/1! + 1/2! + .. in fixed point. A number is its whole
   part and then seven digits to base 2^32, the highest first. */
#include "oscar.h"

#define PARTS 8

static void add(uint32_t *sum, const uint32_t *number)
{
    uint64_t carry = 0;
    for (int part = PARTS - 1; part >= 0; part--) {
        carry += (uint64_t)sum[part] + number[part];
        sum[part] = carry;
        carry >>= 32;
    }
}

/* Divides by a small number; 0 is returned where nothing is left. */
static int divide(uint32_t *number, uint32_t divisor)
{
    uint64_t remainder = 0;
    uint32_t left = 0;
    for (int part = 0; part < PARTS; part++) {
        remainder = remainder << 32 | number[part];
        number[part] = remainder / divisor;
        remainder %= divisor;
        left |= number[part];
    }
    return left != 0;
}

/* Takes the whole part away, multiplies what is left by ten, and returns the new whole part. */
static uint32_t next_digit(uint32_t *number)
{
    uint64_t carry = 0;
    number[0] = 0;
    for (int part = PARTS - 1; part >= 0; part--) {
        carry += (uint64_t)number[part] * 10;
        number[part] = carry;
        carry >>= 32;
    }
    return number[0];
}

int main(void)
{
    uint32_t sum[PARTS] = {1};
    uint32_t term[PARTS] = {1};
    for (uint32_t divisor = 1; divide(term, divisor); divisor++)
        add(sum, term);
    print_number(sum[0]);
    print(".");
    for (int digit = 0; digit < 60; digit++) {
        char shown = '0' + next_digit(sum);
        oscar_write(&shown, 1);
    }
    print("\n");
    return 0;
}
