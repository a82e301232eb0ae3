/* Words between programs over TCP: what the example hosts and the hotel share. A word is four bytes, the highest first.
 *
 * Before real use:
 *   - everything here travels in the clear, and whoever greets as host 1 is believed. Put an authenticated, encrypted
 *     channel under it (TLS with known peers, say): who reads the words of two hosts can work out the reading;
 *   - a mask list must never be used twice, not even after a run that broke. After every job cut the used words off
 *     (lamphiek_unused_a and _b give what is left), and draw fresh lists in good time: a worker's state tells how far a
 *     job is with them (its stored places);
 *   - the hosts print their shares and words, to show what each saw. A real host prints none of them.
 *
 * What is said, in order:
 *   whoever connects                         the greeting: WIRE_MAGIC, and who is calling (WIRE_HOST0 to WIRE_HOTEL)
 *   the hotel to each host                   how many words the job has, the job, the host's two words of register 0
 *   host 0 to host 2                         how many deals, the deals
 *   hosts 1 and 2 to each other, at once     one word at every product and refresh
 *   each host to the hotel                   number, index; where the number is 0, its two words of register 0, and
 *                                            from hosts 1 and 2 how many words they spoke
 *
 * A function that meets trouble says on stderr who met what with whom, and hands it back; none ends the program.
 */
#ifndef WIRE_H
#define WIRE_H

#include <stddef.h>
#include <stdint.h>

#define WIRE_MAGIC 0x4C414D50u

enum { WIRE_HOST0 = 0, WIRE_HOST1 = 1, WIRE_HOST2 = 2, WIRE_HOTEL = 3 };

/* A host's number for the hotel that is none of the engine's: a peer's connection broke, or its message was refused. */
enum { WIRE_BROKEN = 100 };

/* Exit statuses. */
enum { WIRE_DONE = 0, WIRE_TROUBLE = 1, WIRE_USAGE = 2, WIRE_REFUSED = 3 };

/* How sending or receiving ended. */
enum wire_end {
    WIRE_OK,
    WIRE_CLOSED,      /* the peer closed the connection between two messages */
    WIRE_CUT_MESSAGE, /* in the middle of a message, between two words */
    WIRE_CUT_WORD,    /* in the middle of a word */
    WIRE_SILENT,      /* the peer did not send, or did not take, in time */
    WIRE_TOO_LONG,    /* the peer announced more words than there may be */
    WIRE_ERROR        /* the system's: errno */
};

/* A connection: who is at the other end, its socket (-1: none), and how long to wait for a message, in milliseconds. */
struct wire {
    uint32_t who;
    int socket;
    long wait_ms;
};

struct word_list {
    uint32_t *at;
    size_t words;
};

/* First of all: who this program is. It waits 10 s for a message, or as many milliseconds as WIRE_WAIT_MS says; for a
 * greeting an eighth of that. */
void wire_begin(uint32_t me);

/* A port from an argument; 0 where it is none. */
uint16_t wire_port(const char *text);

/* Listens on a free port of 127.0.0.1 and then writes that port to the file. Gives the socket, or -1. */
int wire_listen(const char *port_file);

/* Takes calls until everyone in the list has called, in any order. Who greets wrongly, a second time or not at all, or
 * is not in the list, is dropped. The socket that listens is closed at the end: nobody else can call. */
enum wire_end wire_accept(int door, struct wire *callers, size_t count);

/* Calls a host and greets it. */
enum wire_end wire_connect(struct wire *to, uint32_t who, uint16_t port);

void wire_close(struct wire *end);

enum wire_end wire_send(const struct wire *to, const uint32_t *words, size_t count);
enum wire_end wire_receive(const struct wire *from, uint32_t *words, size_t count);

/* A message of its count and then so many words, at most as many as there is room for. */
enum wire_end wire_send_list(const struct wire *to, const uint32_t *words, uint32_t count);
enum wire_end wire_receive_list(const struct wire *from, uint32_t *words, size_t room, uint32_t *count);

/* A host's last message: number, index and what follows, of which a refusal has nothing. Gives the exit status. */
int wire_answer(const struct wire *hotel, const uint32_t *answer, size_t count);

/* The words of a file; trouble where it cannot be read, or ends in the middle of a word. The caller frees list->at. */
enum wire_end wire_load(const char *path, struct word_list *list);

#endif
