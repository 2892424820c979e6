/* nonblock FD SIZE COMMAND...: runs the command with descriptor FD made non-blocking. Where SIZE is not 0, FD is a pipe
   and holds about SIZE bytes from then on, so that it is soon full. */
#define _GNU_SOURCE
#include <fcntl.h>
#include <stdio.h>
#include <stdlib.h>
#include <unistd.h>

int main(int argc, char **argv) {
    if (argc < 4) return 126;
    int fd = atoi(argv[1]);
    int size = atoi(argv[2]);
    int flags = fcntl(fd, F_GETFL);
    if (flags < 0 || fcntl(fd, F_SETFL, flags | O_NONBLOCK) < 0 || (size > 0 && fcntl(fd, F_SETPIPE_SZ, size) < 0)) {
        perror("nonblock");
        return 126;
    }
    execvp(argv[3], argv + 3);
    perror(argv[3]);
    return 127;
}
