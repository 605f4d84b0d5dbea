/* Versions that differ, or not, in memory: a caller's variable, stack that is left over, and a read past the end of a table. */
#include "region.h"
#include "services.h"

/* The original: the sum of the first four numbers, thirteen times, goes to the sixth. */
static int by_rounds(int *numbers) {
    int sum = 0;
    for (int i = 0; i < 52; i++) sum += numbers[i % 4];
    numbers[5] = sum;
    return 0;
}

/* Wrong: it leaves out the fourth. */
static int by_three(int *numbers) {
    numbers[5] = 13 * (numbers[0] + numbers[1] + numbers[2]);
    return 0;
}
REGION(sum_by_three, by_rounds, by_three, 0);

/* Right, but its copy stays behind on the stack. */
static int by_copy(int *numbers) {
    volatile int copy[4];
    for (int i = 0; i < 4; i++) copy[i] = numbers[i];
    numbers[5] = 13 * (copy[0] + copy[1] + copy[2] + copy[3]);
    return 0;
}
REGION(sum_by_copy, by_rounds, by_copy, 0);
REGION(sum_by_copy_cleared, by_rounds, by_copy, 16);

/* It reads past the end of the table, where memory is mapped, and makes no use of it. */
static volatile int table[4];
static int by_four(int n) {
    for (int i = 0; i < n; i++) table[i % 4];
    return n;
}
static int by_all(int n) {
    for (int i = 0; i < n / 2; i++) table[i];
    return n;
}
REGION(read_table, by_four, by_all, 0);

int main(void) {
    int numbers[6] = {1, 2, 3, 4};
    sum_by_three(numbers);
    sum_by_copy(numbers);
    sum_by_copy_cleared(numbers);
    print(numbers[5]);
    print(read_table(100));
    return 0;
}
