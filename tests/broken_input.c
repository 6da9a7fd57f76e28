/*
 * Runs a program whose standard input gives one byte and then fails: it is one
 * end of a pair of sockets, and the other end is closed with a byte unread.
 *
 *   broken_input PROGRAM [ARGUMENT...]
 */
#define _POSIX_C_SOURCE 200112L

#include <stdio.h>
#include <sys/socket.h>
#include <unistd.h>

int main(int argc, char **argv)
{
    int ends[2];
    if (argc < 2 || socketpair(AF_UNIX, SOCK_STREAM, 0, ends) != 0
        || write(ends[0], "\1", 1) != 1 || write(ends[1], "\1", 1) != 1
        || close(ends[0]) != 0 || dup2(ends[1], STDIN_FILENO) < 0) {
        perror("broken_input");
        return 1;
    }
    execvp(argv[1], argv + 1);
    perror(argv[1]);
    return 1;
}
