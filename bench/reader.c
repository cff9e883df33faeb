/* Reads N bytes as they come, at most 1024 at a time, answers a byte, and ends with its connection: what
   reading takes without a desk. bench/bytes sends it what it sends the desk. */
#include <arpa/inet.h>
#include <stdio.h>
#include <stdlib.h>
#include <sys/socket.h>

int main(int count, char **words) {
    struct sockaddr_in address = {.sin_family = AF_INET, .sin_addr.s_addr = htonl(INADDR_LOOPBACK)};
    socklen_t length = sizeof address;
    long left = count == 2 ? atol(words[1]) : 0;
    int listener = socket(AF_INET, SOCK_STREAM, 0);
    if (left <= 0 || bind(listener, (struct sockaddr *)&address, length) || listen(listener, 1)
        || getsockname(listener, (struct sockaddr *)&address, &length))
        return 1;
    fprintf(stderr, "listening 127.0.0.1:%d\n", ntohs(address.sin_port));
    int connection = accept(listener, NULL, NULL);
    static char room[1024];
    ssize_t got;
    while ((got = recv(connection, room, sizeof room, 0)) > 0) {
        left -= got;
        if (left == 0 && send(connection, "!", 1, 0) != 1)
            return 1;
    }
    return got < 0 || left;
}
