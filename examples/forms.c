/* Each form of a region in region.h once, with a fast version that is kept. It is C and C++ alike. */
#include "region.h"
#include "services.h"

#define STACK 32

/* One argument, and two versions that are the same: the steps from a number to 1, halving even ones and tripling others. */
static unsigned by_steps(unsigned n) {
    unsigned steps = 0;
    for (; n > 1; steps++) n = n % 2 ? 3 * n + 1 : n / 2;
    return steps;
}
REGION(steps, by_steps, by_steps, 0);

/* Two arguments: the greatest common divisor. */
static unsigned by_difference(unsigned a, unsigned b) {
    while (a != b)
        if (a > b) a -= b;
        else b -= a;
    return a;
}
static unsigned by_remainder(unsigned a, unsigned b) {
    while (b) {
        unsigned rest = a % b;
        a = b;
        b = rest;
    }
    return a;
}
REGION(divisor, by_difference, by_remainder, 0);

/* Three arguments: base to the exponent, modulo a number below 65,536. */
static unsigned by_factors(unsigned base, unsigned exponent, unsigned modulus) {
    unsigned power = 1;
    while (exponent--) power = power * base % modulus;
    return power;
}
static unsigned by_squares(unsigned base, unsigned exponent, unsigned modulus) {
    unsigned power = 1;
    for (; exponent; exponent >>= 1, base = base * base % modulus)
        if (exponent & 1) power = power * base % modulus;
    return power;
}
REGION(power, by_factors, by_squares, 0);

/* Four arguments, one a pointer: where a number stands between two places of a sorted table. */
static long by_places(const int *table, long from, long to, int wanted) {
    for (long at = from; at < to; at++)
        if (table[at] == wanted) return at;
    return -1;
}
static long by_halves(const int *table, long from, long to, int wanted) {
    while (from < to) {
        long middle = from + (to - from) / 2;
        if (table[middle] == wanted) return middle;
        if (table[middle] < wanted) from = middle + 1;
        else to = middle;
    }
    return -1;
}
REGION(place, by_places, by_halves, 0);

/* Seven arguments: a polynomial. */
static long times(long x, long n, long factor) {
    for (; n; n--) factor *= x;
    return factor;
}
static long by_powers(long x, long a, long b, long c, long d, long e, long f) {
    return a + times(x, 1, b) + times(x, 2, c) + times(x, 3, d) + times(x, 4, e) + times(x, 5, f);
}
static long by_horner(long x, long a, long b, long c, long d, long e, long f) {
    return ((((f * x + e) * x + d) * x + c) * x + b) * x + a;
}
REGION(polynomial, by_powers, by_horner, 0);

/* A macro as the number of bytes of stack: the decimal digits of a number, sorted. The fast version counts them on the stack. */
static unsigned by_scans(unsigned n) {
    unsigned sorted = 0;
    for (unsigned digit = 1; digit < 10; digit++)
        for (unsigned left = n; left; left /= 10)
            if (left % 10 == digit) sorted = sorted * 10 + digit;
    return sorted;
}
static unsigned by_counts(unsigned n) {
    unsigned char counts[10] = {0};
    for (; n; n /= 10) counts[n % 10]++;
    unsigned sorted = 0;
    for (unsigned digit = 1; digit < 10; digit++)
        for (; counts[digit]; counts[digit]--) sorted = sorted * 10 + digit;
    return sorted;
}
REGION(sorted, by_scans, by_counts, STACK);

/* Two branches of one function: the number of one bits of all numbers below n. */
__attribute__((noinline)) static unsigned bits_below(unsigned n) {
    unsigned count = 0;
    if (fast_track() == 1) {
        for (unsigned bit = 0; bit < 31 && n >> bit; bit++) {
            unsigned rest = n & ((2u << bit) - 1);
            count += n >> (bit + 1) << bit;
            if (rest > 1u << bit) count += rest - (1u << bit);
        }
    } else {
        for (unsigned i = 0; i < n; i++)
            for (unsigned left = i; left; left &= left - 1) count++;
    }
    end_dual_track();
    return count;
}

static int table[200];

#ifdef __cplusplus
extern "C"
#endif
int main(void) {
    for (int i = 0; i < 200; i++) table[i] = 3 * i + 1;
    print(steps(27));
    print(divisor(1071, 1029));
    print(power(7, 100, 65521));
    print(place(table, 20, 200, 424));
    print(polynomial(3, 1, 2, 3, 4, 5, 6));
    print(sorted(52417231));
    print(bits_below(table[33]));
    return 0;
}
