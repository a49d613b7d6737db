/* Feeds a program its standard input in pieces: pieces SIZE PROGRAM WORDS.. < FILE. Each read of the program gets SIZE octets, the last one what is left, if its buffer has the room: they come
 * as packets, and what does not fit of one is lost. The status is the program's, 125 where something else goes wrong. */
#define _DEFAULT_SOURCE
#include <errno.h>
#include <signal.h>
#include <stdio.h>
#include <stdlib.h>
#include <sys/socket.h>
#include <sys/wait.h>
#include <unistd.h>

static void fail(const char *what)
{
    perror(what);
    exit(125);
}

int main(int argc, char **argv)
{
    static char piece[1 << 16];
    size_t size = argc > 2 ? (size_t)atol(argv[1]) : 0;
    int ends[2], status;
    ssize_t n;
    if (size < 1 || size > sizeof piece) {
        fprintf(stderr, "usage: pieces SIZE PROGRAM WORDS.. < FILE\n");
        return 125;
    }
    if (socketpair(AF_UNIX, SOCK_SEQPACKET, 0, ends) != 0)
        fail("socketpair");
    pid_t child = fork();
    if (child < 0)
        fail("fork");
    if (child == 0) {
        if (dup2(ends[0], 0) < 0)
            fail("dup2");
        close(ends[0]);
        close(ends[1]);
        execvp(argv[2], argv + 2);
        fail(argv[2]);
    }
    close(ends[0]);
    signal(SIGPIPE, SIG_IGN);
    while ((n = read(0, piece, size)) > 0) {
        if (send(ends[1], piece, (size_t)n, 0) == n)
            continue;
        if (errno != EPIPE && errno != ECONNRESET) /* a program need not read all */
            fail("send");
        break;
    }
    if (n < 0)
        fail("read");
    close(ends[1]);
    if (waitpid(child, &status, 0) != child)
        fail("waitpid");
    return WIFEXITED(status) ? WEXITSTATUS(status) : 125;
}
