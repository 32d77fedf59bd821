/* A test in two processes at once. Who includes this has defined _POSIX_C_SOURCE before. */
#ifndef HALVES_H
#define HALVES_H
#include <stdio.h>
#include <string.h>
#include <sys/wait.h>
#include <unistd.h>

enum { MOST_COUNTS = 400 };

/* Does both halves of some work, which answers whether all is well; what each of them adds to the counts is added up. */
static int in_halves(int (*work)(unsigned half), unsigned long *counts, size_t length)
{
    unsigned long others[MOST_COUNTS];
    size_t size = length * sizeof *counts, got = 0;
    int ends[2], status = 1;
    fflush(stdout);
    pid_t child = pipe(ends) ? -1 : fork();
    if (child < 0) {
        perror("halves");
        return 0;
    }
    if (!child) {
        int ok = work(1);
        fflush(stdout);
        _exit(!ok || write(ends[1], counts, size) != (ssize_t)size);
    }
    close(ends[1]);
    int ok = work(0);
    for (ssize_t more = 1; more > 0 && got < size; got += more > 0 ? (size_t)more : 0)
        more = read(ends[0], (char *)others + got, size - got);
    waitpid(child, &status, 0);
    for (size_t i = 0; i < length && got == size; i++)
        counts[i] += others[i];
    return ok && got == size && !status;
}
#endif
