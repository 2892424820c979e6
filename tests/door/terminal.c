/* terminal FILE TYPED COMMAND...: runs the command with a new terminal as its standard error; FILE gets what appears
   there. Where TYPED is not empty, the terminal is its standard input too, and TYPED is typed once a line has appeared.
   The status is the command's, or 128 + S where signal S ended it. */
#define _GNU_SOURCE
#include <fcntl.h>
#include <signal.h>
#include <stdio.h>
#include <stdlib.h>
#include <string.h>
#include <sys/wait.h>
#include <unistd.h>

/* The command leads a session of its own, whose terminal is the one that it opens first. */
static void run(const char *name, int typed, char **command) {
    setsid();
    int terminal = open(name, O_RDWR);
    if (terminal < 0 || dup2(terminal, 2) < 0 || (typed && dup2(terminal, 0) < 0)) _exit(126);
    if (terminal > 2) close(terminal);
    signal(SIGINT, SIG_DFL);
    signal(SIGQUIT, SIG_DFL);
    execvp(command[0], command);
    _exit(127);
}

int main(int argc, char **argv) {
    char bytes[4096];
    if (argc < 4) return 126;
    const char *typed = argv[2];
    int file = open(argv[1], O_WRONLY | O_CREAT | O_TRUNC | O_CLOEXEC, 0666);
    int terminal = posix_openpt(O_RDWR | O_NOCTTY | O_CLOEXEC);
    if (file < 0 || terminal < 0 || grantpt(terminal) < 0 || unlockpt(terminal) < 0) {
        perror("terminal");
        return 126;
    }
    /* Held open until the command has opened it too: reading ends once nobody has it open. */
    int held = open(ptsname(terminal), O_RDWR | O_NOCTTY | O_CLOEXEC);
    pid_t child = fork();
    if (held < 0 || child < 0) {
        perror("terminal");
        return 126;
    }
    if (child == 0) run(ptsname(terminal), typed[0] != '\0', argv + 3);
    close(held);
    ssize_t got;
    while ((got = read(terminal, bytes, sizeof bytes)) > 0) {
        if (write(file, bytes, got) != got) return 126;
        if (memchr(bytes, '\n', got) != NULL) {
            /* Where the command has ended meanwhile nobody reads it, and that is no fault. */
            ssize_t put = write(terminal, typed, strlen(typed));
            (void)put;
            typed = "";
        }
    }
    int status;
    if (waitpid(child, &status, 0) != child) return 126;
    return WIFSIGNALED(status) ? 128 + WTERMSIG(status) : WEXITSTATUS(status);
}
