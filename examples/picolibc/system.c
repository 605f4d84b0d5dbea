/* What picolibc asks of a system, over the services of the runtime: read, write, the end of the program and its break. */
#include <errno.h>
#include <stdint.h>
#include <stdio-bufio.h>
#include <stdio.h>
#include <unistd.h>

#include "../services.h"

/* A service answers a number below 0 for an error. */
static long checked(long answer) {
    if (answer >= 0) return answer;
    errno = -answer;
    return -1;
}

ssize_t read(int descriptor, void *to, size_t count) { return checked(call(READ, descriptor, (long)to, count)); }
ssize_t write(int descriptor, const void *from, size_t count) { return checked(call(WRITE, descriptor, (long)from, count)); }

void _exit(int code) {
    for (;;) call(EXIT, code, 0, 0);
}

/* The heap: it begins at the program break that the image is loaded with. */
void *sbrk(ptrdiff_t change) {
    uintptr_t old = call(BREAK, 0, 0, 0);
    uintptr_t wanted = old + change;
    if ((uintptr_t)call(BREAK, wanted, 0, 0) == wanted) return (void *)old;
    errno = ENOMEM;
    return (void *)-1;
}

/* The streams. Output is kept up to a line's end, that of stderr not at all. */
static char in[4096], out[4096], err[1];
static struct __file_bufio files[3] = {
    FDEV_SETUP_BUFIO(0, in, sizeof in, read, write, 0, 0, __SRD, 0),
    FDEV_SETUP_BUFIO(1, out, sizeof out, read, write, 0, 0, __SWR, __BLBF),
    FDEV_SETUP_BUFIO(2, err, sizeof err, read, write, 0, 0, __SWR, 0),
};
FILE *const stdin = (FILE *)&files[0];
FILE *const stdout = (FILE *)&files[1];
FILE *const stderr = (FILE *)&files[2];

/* `exit` runs it; after `_exit` and `abort` a line that has no end is lost. */
__attribute__((destructor)) static void flush(void) { fflush(stdout); }
