/* slow SIZE PAUSE: copies standard input to standard output, at most SIZE bytes at a time, with a pause of PAUSE
   microseconds after each part. With SIZE 0 it reads nothing before whoever writes into the pipe has ended. */
#define _DEFAULT_SOURCE
#include <poll.h>
#include <stdio.h>
#include <stdlib.h>
#include <unistd.h>

int main(int argc, char **argv) {
    static char part[65536];
    if (argc != 3) return 2;
    size_t size = strtoul(argv[1], NULL, 10);
    useconds_t pause = strtoul(argv[2], NULL, 10);
    if (size == 0) {
        struct pollfd closed = {.fd = 0, .events = 0};
        if (poll(&closed, 1, -1) != 1) return 2;
    }
    if (size == 0 || size > sizeof part) size = sizeof part;
    for (;;) {
        ssize_t got = read(0, part, size);
        if (got == 0) return 0;
        if (got < 0 || fwrite(part, 1, got, stdout) != (size_t)got) return 2;
        usleep(pause);
    }
}
