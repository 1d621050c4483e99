/* reset FILE COMMAND ..: runs COMMAND with a TCP connection as its standard input. The file's bytes came over it, and then it was reset: the command reads
 * the bytes, then one read that fails, and after that the end. */
#define _DEFAULT_SOURCE
#include <arpa/inet.h>
#include <stdio.h>
#include <string.h>
#include <sys/socket.h>
#include <unistd.h>

static int fails(const char *what) {
    perror(what);
    return 2;
}

int main(int count, char **words) {
    static char bytes[1 << 20];
    struct sockaddr_in here;
    socklen_t length = sizeof here;
    struct linger at_once = {1, 0};
    int listening, from, to;
    size_t n;
    FILE *file;
    if (count < 3) return 2;
    file = fopen(words[1], "rb");
    if (!file) return fails(words[1]);
    n = fread(bytes, 1, sizeof bytes / 8, file);
    fclose(file);
    memset(&here, 0, sizeof here);
    here.sin_family = AF_INET;
    here.sin_addr.s_addr = htonl(INADDR_LOOPBACK);
    listening = socket(AF_INET, SOCK_STREAM, 0);
    from = socket(AF_INET, SOCK_STREAM, 0);
    if (listening < 0 || from < 0 || bind(listening, (struct sockaddr *)&here, length) || listen(listening, 1)) return fails("listening");
    if (getsockname(listening, (struct sockaddr *)&here, &length) || connect(from, (struct sockaddr *)&here, length)) return fails("connecting");
    to = accept(listening, 0, 0);
    if (to < 0) return fails("accepting");
    if (write(from, bytes, n) != (ssize_t)n) return fails("sending");
    /* closed at once, with nothing to wait for: the peer is sent a reset */
    if (setsockopt(from, SOL_SOCKET, SO_LINGER, &at_once, sizeof at_once) || close(from)) return fails("resetting");
    usleep(100000);
    if (dup2(to, 0)) return fails("standard input");
    close(to);
    close(listening);
    execvp(words[2], words + 2);
    return fails(words[2]);
}
