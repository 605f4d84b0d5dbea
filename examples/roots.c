/* Integer square roots: one slow function, and fast versions of it of which some are wrong, each in a region of its own.
   The output is the slow function's, whatever the fast versions do. */
#include "region.h"
#include "services.h"

/* The original. n is from 0 to 1,000,000,000. */
static long by_counting(long n) {
    long root = 0;
    while ((root + 1) * (root + 1) <= n) root++;
    return root;
}

/* Right: the root's bits from the highest on. */
static long by_bits(long n) {
    long root = 0;
    for (long bit = 1 << 14; bit; bit >>= 1)
        if ((root + bit) * (root + bit) <= n) root += bit;
    return root;
}

/* Wrong: Newton's method that stops where two steps agree to within 1, and so may answer too much. */
static long by_newton(long n) {
    long root = n, next = (n + 1) / 2;
    while (root - next > 1) {
        root = next;
        next = (root + n / root) / 2;
    }
    return root;
}

/* Wrong: the answer is right, but the original has no such memory. */
static struct { long n, root; } last;
static long by_memory(long n) {
    if (n != last.n) {
        last.n = n;
        last.root = by_bits(n);
    }
    return last.root;
}

/* Wrong: a search that halves the range, but not where two numbers are left. */
static long by_halving(long n) {
    long low = 0, high = 1 << 15;
    while (low < high) {
        long middle = (low + high) / 2;
        if (middle * middle <= n) low = middle;
        else high = middle - 1;
    }
    return low;
}

/* Wrong: the table is shorter than the numbers that are asked for. */
static const unsigned char table[] = {0, 1, 1, 1, 2, 2, 2, 2, 2, 3, 3, 3, 3, 3, 3, 3};
static long by_table(long n) { return table[n]; }

/* Right: the decimal digits of n, two at a time; it keeps them on the stack. */
static long by_digits(long n) {
    char pairs[8];
    long root = 0, count = 0;
    for (; n; n /= 100) pairs[count++] = n % 100;
    long left = 0;
    while (count) {
        left = left * 100 + pairs[--count];
        long digit = 9;
        while ((20 * root + digit) * digit > left) digit--;
        left -= (20 * root + digit) * digit;
        root = 10 * root + digit;
    }
    return root;
}

REGION(root_by_bits, by_counting, by_bits, 0);
REGION(root_by_newton, by_counting, by_newton, 0);
REGION(root_by_memory, by_counting, by_memory, 0);
REGION(root_by_halving, by_counting, by_halving, 0);
REGION(root_by_table, by_counting, by_table, 0);
REGION(root_by_digits, by_counting, by_digits, 0);
REGION(root_by_digits_cleared, by_counting, by_digits, 16);

int main(void) {
    print(root_by_bits(1000000));
    print(root_by_newton(1000000));
    print(root_by_newton(999999));
    print(root_by_memory(1000000));
    print(root_by_halving(1000000));
    print(root_by_table(100000000));
    print(root_by_digits(1000000));
    print(root_by_digits_cleared(1000000));
    return 0;
}
