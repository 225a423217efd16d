/*
 * writes COMMAND..: runs the command with a socket as its standard output that keeps one write
 * apart from the next, and prints how many bytes each write had, a line each.
 */
#define _DEFAULT_SOURCE /* fork */

#include <stdio.h>
#include <sys/socket.h>
#include <sys/wait.h>
#include <unistd.h>

int main(int argc, char **argv)
{
    char bytes[65536];
    int ends[2];
    int status;

    if (argc < 2 || socketpair(AF_UNIX, SOCK_SEQPACKET, 0, ends) != 0)
        return 2;
    pid_t child = fork();
    if (child == 0) {
        dup2(ends[1], STDOUT_FILENO);
        close(ends[0]);
        close(ends[1]);
        execvp(argv[1], argv + 1);
        _exit(127);
    }
    close(ends[1]);
    for (ssize_t n; (n = recv(ends[0], bytes, sizeof bytes, 0)) > 0;)
        printf("%zd\n", n);
    return child > 0 && waitpid(child, &status, 0) == child && status == 0 ? 0 : 1;
}
