/* The network that docs/HOSTS.md asks for, over UDP on the loopback address: messages may be lost, late and out of order, none is taken
 * twice, and a keeper that has restarted is sent again what it forgot.
 * A datagram is a number of 8 bytes that is acknowledged, or 0, then messages, each behind its own number of 8 bytes. These numbers are
 * in the machine's own byte order, for both ends are on one machine; all peers share one count. */
#define _DEFAULT_SOURCE
#include "sigma.h"
#include <arpa/inet.h>
#include <poll.h>
#include <stdio.h>
#include <stdlib.h>
#include <string.h>
#include <sys/socket.h>
#include <time.h>

enum { PEERS = 256, KEEPERS = 20000, KIOSKS = 21000 };  /* keeper 1 has port 20001, kiosk 1 port 21001 */
enum { AGAIN = 20000, REMIND = 200000 };                /* microseconds to the next sending, unacknowledged and acknowledged */

struct kept {
    uint64_t number;
    uint32_t kind, timestamp, length;
    uint8_t bytes[SIGMA_MESSAGE_MAX];
};

struct link {                  /* to one peer, and from it */
    struct kept kept[2];       /* to it: the last REQUEST, RELEASE or RESPONSE, and the newest after it; those between may be lost */
    int count, acknowledged;
    uint64_t due;              /* when they are sent next */
    uint64_t taken;            /* from it: this number and those below it are taken no more */
};

static struct link links[PEERS];
static uint64_t last_number, messages; /* the number last used; the messages sent and taken so far, each counted once */
static int udp, peer_ports, peer_word; /* the peers' first port, and the word of a message that names its peer */

static uint64_t microseconds(clockid_t clock)
{
    struct timespec t;
    clock_gettime(clock, &t);
    return (uint64_t)t.tv_sec * 1000000 + (uint64_t)t.tv_nsec / 1000;
}

static uint64_t now(void)
{
    return microseconds(CLOCK_MONOTONIC);
}

static struct sockaddr_in address(int port)
{
    struct sockaddr_in a = {.sin_family = AF_INET, .sin_port = htons((uint16_t)port)};
    a.sin_addr.s_addr = htonl(INADDR_LOOPBACK);
    return a;
}

/* Numbers begin at the time of day: after a restart they are above all that were used before, unless the clock was set back. */
static void link_open(int port, int ports, int word)
{
    struct sockaddr_in a = address(port);
    peer_ports = ports, peer_word = word, last_number = microseconds(CLOCK_REALTIME);
    udp = socket(AF_INET, SOCK_DGRAM, 0);
    if (udp < 0 || bind(udp, (struct sockaddr *)&a, sizeof a) != 0) {
        perror("bind");
        exit(1);
    }
}

static void send_datagram(uint32_t peer, uint64_t acknowledges, const struct kept *kept, int count)
{
    struct sockaddr_in a = address(peer_ports + (int)peer);
    uint8_t out[8 + 2 * (8 + SIGMA_MESSAGE_MAX)];
    size_t end = 8;
    memcpy(out, &acknowledges, 8);
    for (; count > 0; count--, kept++) {
        memcpy(out + end, &kept->number, 8);
        memcpy(out + end + 8, kept->bytes, kept->length);
        end += 8 + kept->length;
    }
    sendto(udp, out, end, 0, (struct sockaddr *)&a, sizeof a);
}

/* Takes apart the messages that a step wrote, and gives each to the link of its peer; one that asks again is held back for `pace`. */
static void link_give(const uint8_t *out, uint32_t bytes, uint64_t pace)
{
    uint32_t m[SIGMA_READ_WORDS], at;
    for (at = 0; at < bytes && sigma_read(out + at, bytes - at, m, SIGMA_READ_WORDS) == 0; at += m[SIGMA_READ_BYTES]) {
        struct link *l = &links[m[peer_word]];
        struct kept k = {++last_number, m[SIGMA_MESSAGE_KIND], m[SIGMA_MESSAGE_TIMESTAMP], m[SIGMA_READ_BYTES], {0}};
        if (k.kind == SIGMA_RELEASE && l->count > 0 && k.timestamp < l->kept[0].timestamp)
            continue;          /* the answer to a late CHECK: what is kept is newer, and takes the old request away by itself */
        if (k.kind == SIGMA_REQUEST || k.kind == SIGMA_RELEASE || k.kind == SIGMA_RESPONSE)
            l->count = 0;      /* these make needless what was kept; a YIELD, INQUIRY or CHECK goes behind it */
        else if (l->count == 2)
            l->count = 1;
        memcpy(k.bytes, out + at, k.length);
        l->kept[l->count++] = k, l->acknowledged = 0;
        l->due = now() + (k.kind == SIGMA_INQUIRY || k.kind == SIGMA_REQUEST ? pace : 0);
        messages++;
    }
}

/* The duplicate filter. The sender is who the datagram came from, and a message that names another is dropped. */
static void take_datagram(uint32_t (*take)(const uint32_t *message))
{
    struct sockaddr_in a = address(0);
    socklen_t size = sizeof a;
    uint8_t in[128];
    ssize_t length = recvfrom(udp, in, sizeof in, MSG_DONTWAIT, (struct sockaddr *)&a, &size);
    uint32_t peer = (uint32_t)(ntohs(a.sin_port) - peer_ports), m[SIGMA_READ_WORDS];
    uint64_t number;
    if (length < 8 || peer >= PEERS)
        return;
    struct link *l = &links[peer];
    memcpy(&number, in, 8);
    if (l->count > 0 && number == l->kept[l->count - 1].number) {
        l->acknowledged = 1, l->due = now() + REMIND;
        if (l->kept[0].kind != SIGMA_REQUEST)
            l->count = 0;      /* but a try's are kept until its RELEASE, for the keeper may yet forget them */
    }
    for (size_t at = 8, left; (left = (size_t)length - at) > 8; at += 8 + m[SIGMA_READ_BYTES]) {
        memcpy(&number, in + at, 8);
        if (sigma_read(in + at + 8, left - 8, m, SIGMA_READ_WORDS) != 0 || m[peer_word] != peer)
            return;
        if (number > l->taken) {
            if (take(m) == 14)
                return;        /* no place in the queue: it comes again */
            l->taken = number;
            messages++;
        }
        if (left == 8 + m[SIGMA_READ_BYTES])
            send_datagram(peer, number, NULL, 0); /* behind the take: what a crash keeps from being taken is sent again */
    }
}

/* Waits for a datagram until then at the latest, takes it, and sends what is due. */
static void link_turn(uint64_t then, uint32_t (*take)(const uint32_t *message))
{
    struct pollfd ready = {.fd = udp, .events = POLLIN};
    uint64_t t = now();
    for (struct link *l = links; l < links + PEERS; l++)
        if (l->count > 0 && l->due < then)
            then = l->due;
    if (poll(&ready, 1, then > t ? (int)((then - t + 999) / 1000) : 0) > 0)
        take_datagram(take);
    t = now();
    for (struct link *l = links; l < links + PEERS; l++)
        if (l->count > 0 && l->due <= t) {
            send_datagram((uint32_t)(l - links), 0, l->kept, l->count);
            l->due = t + (l->acknowledged ? REMIND : AGAIN);
        }
}
