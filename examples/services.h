/* The services of the runtime, and a number as a line of output. */
enum { READ = 63, WRITE = 64, EXIT = 93, BREAK = 214 };

static inline long call(long number, long a, long b, long c) {
    register long a0 __asm__("a0") = a;
    register long a1 __asm__("a1") = b;
    register long a2 __asm__("a2") = c;
    register long a7 __asm__("a7") = number;
    __asm__ volatile("ecall" : "+r"(a0) : "r"(a1), "r"(a2), "r"(a7) : "memory");
    return a0;
}

static inline void print(unsigned n) {
    char text[12];
    int at = sizeof text;
    text[--at] = '\n';
    do text[--at] = '0' + n % 10; while (n /= 10);
    call(WRITE, 1, (long)(text + at), sizeof text - at);
}
