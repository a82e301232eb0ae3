/* A peer that plays a script: rogue connect PORT STEP.., or rogue listen PORT_FILE STEP.. (takes one call)
 *
 *   4c414d50    sends these bytes, in one piece
 *   +200        waits 200 ms
 *   =8          takes 8 bytes and prints them as a line of hexadecimal digits
 *   =           the same for all bytes until the other end closes
 *
 * Then it closes. Exit status: 0, or 1 where a step could not be played, or 2 where there is no such step. It shares no
 * code with the programs that it tries. */
#define _POSIX_C_SOURCE 200809L
#include <arpa/inet.h>
#include <netinet/in.h>
#include <netinet/tcp.h>
#include <poll.h>
#include <stdio.h>
#include <stdlib.h>
#include <string.h>
#include <sys/socket.h>
#include <unistd.h>

static int send_hex(int to, const char *hex)
{
    unsigned char bytes[8192];
    size_t n = strlen(hex) / 2, sent = 0;
    if (strlen(hex) % 2 || n == 0 || n > sizeof bytes || strspn(hex, "0123456789abcdef") != 2 * n)
        return 2;
    for (size_t i = 0; i < n; i++) {
        char digits[3] = {hex[2 * i], hex[2 * i + 1], 0};
        bytes[i] = (unsigned char)strtoul(digits, NULL, 16);
    }
    while (sent < n) {
        ssize_t k = send(to, bytes + sent, n - sent, MSG_NOSIGNAL);
        if (k < 0)
            return 1;
        sent += (size_t)k;
    }
    return 0;
}

/* Prints what came, also where it is too little. */
static int take(int from, const char *count)
{
    size_t n = *count ? strtoul(count, NULL, 10) : (size_t)-1, got = 0;
    unsigned char byte;
    while (got < n && recv(from, &byte, 1, 0) == 1) {
        printf("%02x", byte);
        got++;
    }
    puts("");
    fflush(stdout);
    return *count && got < n;
}

static int play(int peer, char **steps)
{
    int status = 0;
    for (; *steps && !status; steps++) {
        if (**steps == '+')
            poll(NULL, 0, atoi(*steps + 1));
        else if (**steps == '=')
            status = take(peer, *steps + 1);
        else
            status = send_hex(peer, *steps);
    }
    return status;
}

/* Listens, writes its port to the file, and takes one call. */
static int called(const char *port_file, struct sockaddr_in at)
{
    socklen_t size = sizeof at;
    int door = socket(AF_INET, SOCK_STREAM, 0);
    if (door < 0 || bind(door, (struct sockaddr *)&at, size) || listen(door, 1) ||
        getsockname(door, (struct sockaddr *)&at, &size))
        return -1;
    FILE *file = fopen(port_file, "w");
    if (!file)
        return -1;
    fprintf(file, "%d\n", ntohs(at.sin_port));
    return fclose(file) ? -1 : accept(door, NULL, NULL);
}

int main(int argc, char **argv)
{
    struct sockaddr_in at = {.sin_family = AF_INET, .sin_addr.s_addr = htonl(INADDR_LOOPBACK)};
    int peer = -1, on = 1;
    if (argc >= 3 && !strcmp(argv[1], "listen")) {
        peer = called(argv[2], at);
    } else if (argc >= 3 && !strcmp(argv[1], "connect")) {
        at.sin_port = htons((uint16_t)atoi(argv[2]));
        peer = socket(AF_INET, SOCK_STREAM, 0);
        if (peer >= 0 && connect(peer, (struct sockaddr *)&at, sizeof at))
            peer = -1;
    }
    if (peer < 0) {
        fputs("rogue: no peer\n", stderr);
        return 1;
    }
    setsockopt(peer, IPPROTO_TCP, TCP_NODELAY, &on, sizeof on); /* each piece goes out by itself */
    int status = play(peer, argv + 3);
    close(peer);
    return status;
}
