/* Words over TCP connections of 127.0.0.1, and words in files: see wire.h. */
#define _POSIX_C_SOURCE 200809L
#include "wire.h"

#include <arpa/inet.h>
#include <errno.h>
#include <netinet/in.h>
#include <netinet/tcp.h>
#include <poll.h>
#include <stdio.h>
#include <stdlib.h>
#include <string.h>
#include <sys/socket.h>
#include <sys/stat.h>
#include <sys/time.h>
#include <time.h>
#include <unistd.h>

enum { CALLER = 4 }; /* has not greeted yet */

static const char *const NAME[] = {"host 0", "host 1", "host 2", "the hotel", "a caller"};
static uint32_t self;
static long patience = 10000;

void wire_begin(uint32_t me)
{
    const char *text = getenv("WIRE_WAIT_MS");
    long ms = text ? strtol(text, NULL, 10) : 0;
    self = me;
    if (ms > 0 && ms <= 3600000)
        patience = ms;
}

/* ---- trouble */

static enum wire_end trouble(const struct wire *with, enum wire_end what)
{
    static const char *const TEXT[] = {
        [WIRE_CLOSED] = "closed the connection",
        [WIRE_CUT_MESSAGE] = "closed the connection in the middle of a message",
        [WIRE_CUT_WORD] = "closed the connection in the middle of a word",
        [WIRE_SILENT] = "kept us waiting too long",
        [WIRE_TOO_LONG] = "announced too many words",
    };
    if (what == WIRE_ERROR)
        fprintf(stderr, "%s: %s: %s\n", NAME[self], NAME[with->who], strerror(errno));
    else
        fprintf(stderr, "%s: %s %s\n", NAME[self], NAME[with->who], TEXT[what]);
    return what;
}

static enum wire_end file_trouble(const char *path, const char *what)
{
    fprintf(stderr, "%s: %s: %s\n", NAME[self], path, what);
    return WIRE_ERROR;
}

/* ---- words */

static long long now_ms(void)
{
    struct timespec t;
    clock_gettime(CLOCK_MONOTONIC, &t);
    return t.tv_sec * 1000LL + t.tv_nsec / 1000000;
}

/* For sending (SO_SNDTIMEO) or receiving (SO_RCVTIMEO). */
static void limit(int socket, int which, long long ms)
{
    struct timeval t = {.tv_sec = ms / 1000, .tv_usec = ms % 1000 * 1000};
    setsockopt(socket, SOL_SOCKET, which, &t, sizeof t);
}

/* What errno says of a send or receive that failed. */
static enum wire_end failure(void)
{
    if (errno == ECONNRESET || errno == EPIPE)
        return WIRE_CLOSED;
    return errno == EAGAIN || errno == EWOULDBLOCK ? WIRE_SILENT : WIRE_ERROR;
}

enum wire_end wire_send(const struct wire *to, const uint32_t *words, size_t count)
{
    uint32_t bytes[256];
    for (size_t done = 0; done < count;) {
        size_t n = 0, sent = 0;
        while (n < 256 && done < count)
            bytes[n++] = htonl(words[done++]);
        while (sent < 4 * n) {
            /* MSG_NOSIGNAL: a peer that has gone is an answer, not the end of this program */
            ssize_t k = send(to->socket, (char *)bytes + sent, 4 * n - sent, MSG_NOSIGNAL);
            if (k >= 0)
                sent += (size_t)k;
            else if (errno != EINTR)
                return trouble(to, failure());
        }
    }
    return WIRE_OK;
}

/* The whole message has wait_ms, so that a peer who sends it byte by byte cannot hold us. */
enum wire_end wire_receive(const struct wire *from, uint32_t *words, size_t count)
{
    long long end = now_ms() + from->wait_ms;
    size_t got = 0;
    while (got < 4 * count) {
        long long left = end - now_ms();
        if (left <= 0)
            return trouble(from, WIRE_SILENT);
        limit(from->socket, SO_RCVTIMEO, left);
        ssize_t k = recv(from->socket, (char *)words + got, 4 * count - got, 0);
        if (k > 0) {
            got += (size_t)k;
        } else if (k == 0 || errno != EINTR) {
            enum wire_end why = k == 0 ? WIRE_CLOSED : failure();
            if (why == WIRE_CLOSED && got > 0)
                why = got % 4 ? WIRE_CUT_WORD : WIRE_CUT_MESSAGE;
            return trouble(from, why);
        }
    }
    for (size_t i = 0; i < count; i++)
        words[i] = ntohl(words[i]);
    return WIRE_OK;
}

enum wire_end wire_send_list(const struct wire *to, const uint32_t *words, uint32_t count)
{
    enum wire_end end = wire_send(to, &count, 1);
    return end ? end : wire_send(to, words, count);
}

enum wire_end wire_receive_list(const struct wire *from, uint32_t *words, size_t room, uint32_t *count)
{
    enum wire_end end = wire_receive(from, count, 1);
    if (end)
        return end;
    return *count > room ? trouble(from, WIRE_TOO_LONG) : wire_receive(from, words, *count);
}

int wire_answer(const struct wire *hotel, const uint32_t *answer, size_t count)
{
    uint32_t number = answer[0];
    if (hotel->socket < 0 || wire_send(hotel, answer, number ? 2 : count) || number == WIRE_BROKEN)
        return WIRE_TROUBLE;
    return number ? WIRE_REFUSED : WIRE_DONE;
}

/* ---- connections */

uint16_t wire_port(const char *text)
{
    char *end;
    long port = strtol(text, &end, 10);
    return *end == 0 && port > 0 && port < 65536 ? (uint16_t)port : 0;
}

static struct sockaddr_in loopback(uint16_t port)
{
    return (struct sockaddr_in){
        .sin_family = AF_INET, .sin_port = htons(port), .sin_addr.s_addr = htonl(INADDR_LOOPBACK)};
}

static void set_up(struct wire *end, int socket)
{
    int on = 1;
    end->socket = socket;
    end->wait_ms = patience;
    limit(socket, SO_SNDTIMEO, patience);
    setsockopt(socket, IPPROTO_TCP, TCP_NODELAY, &on, sizeof on); /* each word goes out at once */
}

void wire_close(struct wire *end)
{
    if (end->socket >= 0)
        close(end->socket);
    end->socket = -1;
}

enum wire_end wire_connect(struct wire *to, uint32_t who, uint16_t port)
{
    struct sockaddr_in at = loopback(port);
    const uint32_t greeting[2] = {WIRE_MAGIC, self};
    to->who = who;
    to->socket = socket(AF_INET, SOCK_STREAM, 0);
    if (to->socket < 0)
        return trouble(to, WIRE_ERROR);
    set_up(to, to->socket); /* before connecting, which has the same limit as sending */
    if (connect(to->socket, (struct sockaddr *)&at, sizeof at))
        return trouble(to, WIRE_ERROR);
    return wire_send(to, greeting, 2);
}

static enum wire_end write_port(const char *path, uint16_t port)
{
    char fresh[4096];
    int length = snprintf(fresh, sizeof fresh, "%s.new", path);
    if (length < 0 || (size_t)length >= sizeof fresh)
        return file_trouble(path, "too long a name");
    FILE *file = fopen(fresh, "w");
    if (!file)
        return file_trouble(fresh, strerror(errno));
    int written = fprintf(file, "%u\n", (unsigned)port) > 0;
    /* renamed when whole, so that nobody reads half a port */
    if (fclose(file) || !written || rename(fresh, path))
        return file_trouble(path, strerror(errno));
    return WIRE_OK;
}

int wire_listen(const char *port_file)
{
    struct sockaddr_in at = loopback(0);
    socklen_t size = sizeof at;
    int door = socket(AF_INET, SOCK_STREAM, 0);
    if (door < 0 || bind(door, (struct sockaddr *)&at, size) || listen(door, 8) ||
        getsockname(door, (struct sockaddr *)&at, &size))
        file_trouble("listening", strerror(errno));
    else if (!write_port(port_file, ntohs(at.sin_port)))
        return door;
    if (door >= 0)
        close(door);
    return -1;
}

/* The caller's greeting, for which there is little time: others may be waiting behind. */
static struct wire *greeted(int socket, struct wire *callers, size_t count)
{
    struct wire caller = {.who = CALLER};
    uint32_t greeting[2];
    set_up(&caller, socket);
    caller.wait_ms = patience / 8 + 1;
    if (wire_receive(&caller, greeting, 2))
        return NULL;
    for (size_t i = 0; i < count && greeting[0] == WIRE_MAGIC; i++)
        if (callers[i].who == greeting[1] && callers[i].socket < 0)
            return &callers[i];
    fprintf(stderr, "%s: a caller greeted wrongly\n", NAME[self]);
    return NULL;
}

enum wire_end wire_accept(int door, struct wire *callers, size_t count)
{
    struct pollfd calls = {.fd = door, .events = POLLIN};
    long long end = now_ms() + patience, left;
    size_t missing = count;
    while (missing > 0 && (left = end - now_ms()) > 0) {
        int socket = poll(&calls, 1, (int)left) > 0 ? accept(door, NULL, NULL) : -1;
        if (socket < 0)
            continue;
        struct wire *caller = greeted(socket, callers, count);
        if (caller) {
            set_up(caller, socket);
            missing--;
        } else {
            close(socket);
        }
    }
    close(door);
    for (size_t i = 0; i < count; i++)
        if (callers[i].socket < 0)
            trouble(&callers[i], WIRE_SILENT);
    return missing ? WIRE_SILENT : WIRE_OK;
}

/* ---- files */

enum wire_end wire_load(const char *path, struct word_list *list)
{
    struct stat about;
    if (stat(path, &about))
        return file_trouble(path, strerror(errno));
    if (about.st_size % 4)
        return file_trouble(path, "ends in the middle of a word");
    list->words = (size_t)about.st_size / 4;
    list->at = malloc(4 * list->words + 1); /* + 1: with no words, NULL need not say that there is no room */
    FILE *file = fopen(path, "rb");
    size_t got = file && list->at ? fread(list->at, 4, list->words, file) : 0;
    int whole = file && list->at && got == list->words;
    if (file)
        fclose(file);
    if (!whole) {
        free(list->at);
        list->at = NULL;
        return file_trouble(path, "cannot be read");
    }
    for (size_t i = 0; i < list->words; i++)
        list->at[i] = ntohl(list->at[i]);
    return WIRE_OK;
}
