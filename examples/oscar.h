/* What a guest in C has of the machine: its environment calls by plain names, a thread that runs a C
   function, atomic operations, and a little output. docs/GUESTS.md says what each call answers. */
#ifndef OSCAR_H
#define OSCAR_H

#include <stddef.h>
#include <stdint.h>

/* One environment call: the number goes into a7, the arguments into a0 to a2, and the answer comes in a0.
   All other registers are kept. */
static inline uint64_t oscar_call(uint64_t number, uint64_t first, uint64_t second, uint64_t third)
{
    register uint64_t a0 __asm__("a0") = first;
    register uint64_t a1 __asm__("a1") = second;
    register uint64_t a2 __asm__("a2") = third;
    register uint64_t a7 __asm__("a7") = number;
    __asm__ volatile("ecall" : "+r"(a0) : "r"(a1), "r"(a2), "r"(a7) : "memory");
    return a0;
}

/* Ends the process with this status modulo 64. */
static inline _Noreturn void oscar_exit(int status)
{
    oscar_call(1, (uint64_t)status, 0, 0);
    __builtin_unreachable();
}

/* Appends the bytes to the output and answers how many there was room for; all processes share 4 MiB. */
static inline size_t oscar_write(const void *bytes, size_t count)
{
    return oscar_call(2, (uint64_t)bytes, count, 0);
}

/* A new object of zero bytes, or NULL. */
static inline void *oscar_malloc(size_t size)
{
    return (void *)oscar_call(3, size, 0, 0);
}

/* Ends the object. Of NULL nothing happens; of any other pointer than the start of a living object the
   process ends by a fault. */
static inline void oscar_free(void *object)
{
    oscar_call(4, (uint64_t)object, 0, 0);
}

/* The object's bytes in an object of another size. The answer is another pointer, always, and the old one
   is dead; or NULL, and the old one lives on. */
static inline void *oscar_realloc(void *object, size_t size)
{
    return (void *)oscar_call(5, (uint64_t)object, size, 0);
}

/* A child with a copy of the memory: its number in the parent, 0 in the child, or -1. */
static inline int64_t oscar_fork(void)
{
    return (int64_t)oscar_call(6, 0, 0, 0);
}

/* A thread that begins at an instruction, with this stack pointer and argument in sp and a0 and every other
   register 0: its number, or -1. It has no gp and nowhere to return to; oscar_thread runs a C function. */
static inline int64_t oscar_spawn(const void *entry, void *stack, uint64_t argument)
{
    return (int64_t)oscar_call(7, (uint64_t)entry, (uint64_t)stack, argument);
}

/* The value with which the thread ended, once it has; or -1 where this process spawned no such thread. */
static inline int64_t oscar_join(int64_t thread)
{
    return (int64_t)oscar_call(8, (uint64_t)thread, 0, 0);
}

/* Ends the thread with this value. The end of the last thread ends the process, with status 0. */
static inline _Noreturn void oscar_done(uint64_t value)
{
    oscar_call(9, value, 0, 0);
    __builtin_unreachable();
}

/* So many new pages of zeros that a later child shares with its parent, or NULL. */
static inline void *oscar_share(size_t pages)
{
    return (void *)oscar_call(10, pages, 0, 0);
}

/* The status with which the child ended, once it has: 0 to 63, or 70 for a fault; or -1 where the caller
   has no such child. */
static inline int64_t oscar_wait(int64_t child)
{
    return (int64_t)oscar_call(11, (uint64_t)child, 0, 0);
}

/* The start of a thread in start.s: sets gp, calls the function whose address lies on top of the stack, and
   ends the thread with what it answers. */
extern const char oscar_thread_start[];

/* A thread that runs function(argument) on the stack that ends at `end`, which is divisible by 16. */
static inline int64_t oscar_thread(void *end, uint64_t (*function)(void *), void *argument)
{
    uint64_t *top = (uint64_t *)end - 2;
    top[0] = (uint64_t)function;
    return oscar_spawn(oscar_thread_start, top, (uint64_t)argument);
}

/* Adds to the word at one stroke, and answers what it was. */
static inline uint64_t oscar_fetch_add(uint64_t *word, uint64_t amount)
{
    uint64_t old;
    __asm__ volatile("amoadd.d.aqrl %0, %2, (%1)" : "=r"(old) : "r"(word), "r"(amount) : "memory");
    return old;
}

/* Stores into the word at one stroke, and answers what it was. */
static inline uint64_t oscar_swap(uint64_t *word, uint64_t value)
{
    uint64_t old;
    __asm__ volatile("amoswap.d.aqrl %0, %2, (%1)" : "=r"(old) : "r"(word), "r"(value) : "memory");
    return old;
}

/* Stores `to` where the word is `from`, and answers what it was. It tries again while the conditional store
   fails, which every store into the word's frame makes it do. */
static inline uint64_t oscar_compare_swap(uint64_t *word, uint64_t from, uint64_t to)
{
    uint64_t old;
    uint64_t failed;
    __asm__ volatile("0: lr.d.aqrl %0, (%2)\n"
                     "   bne %0, %3, 1f\n"
                     "   sc.d.aqrl %1, %4, (%2)\n"
                     "   bnez %1, 0b\n"
                     "1:"
                     : "=&r"(old), "=&r"(failed)
                     : "r"(word), "r"(from), "r"(to)
                     : "memory");
    return old;
}

/* A lock is a word that is 0 while it is free. */
static inline void oscar_lock(uint64_t *lock)
{
    while (oscar_compare_swap(lock, 0, 1) != 0)
        ;
}

static inline void oscar_unlock(uint64_t *lock)
{
    oscar_swap(lock, 0);
}

static inline void print(const char *text)
{
    size_t length = 0;
    while (text[length] != 0)
        length++;
    oscar_write(text, length);
}

static inline void print_number(uint64_t number)
{
    char digits[20];
    size_t first = sizeof digits;
    do {
        digits[--first] = '0' + number % 10;
        number /= 10;
    } while (number != 0);
    oscar_write(digits + first, sizeof digits - first);
}

/* Prints an address as the reports do: 0x and hexadecimal digits without leading zeros. */
static inline void print_address(const void *address)
{
    char digits[18];
    size_t first = sizeof digits;
    uint64_t rest = (uint64_t)address;
    do {
        digits[--first] = "0123456789abcdef"[rest % 16];
        rest /= 16;
    } while (rest != 0);
    digits[--first] = 'x';
    digits[--first] = '0';
    oscar_write(digits + first, sizeof digits - first);
}

#endif
