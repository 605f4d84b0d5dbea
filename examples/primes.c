/* Counts the primes below the number that standard input gives, or below 10,000 where it gives none. */
#include "services.h"

int main(void) {
    char digits[12];
    long got = call(READ, 0, (long)digits, sizeof digits);
    unsigned limit = 0;
    for (long i = 0; i < got && digits[i] >= '0' && digits[i] <= '9'; i++) limit = limit * 10 + (digits[i] - '0');
    if (limit == 0 || limit > 4000000) limit = 10000;

    /* The sieve lies on the heap, from the program break on. */
    char *sieve = (char *)call(BREAK, 0, 0, 0);
    if (call(BREAK, (long)(sieve + limit), 0, 0) != (long)(sieve + limit)) return 1;
    unsigned count = 0;
    for (unsigned i = 2; i < limit; i++) {
        if (sieve[i]) continue;
        count++;
        for (unsigned j = i + i; j < limit; j += i) sieve[j] = 1;
    }
    print(count);
    return 0;
}
