/* A bad network for the soak run, in the place of sendto: of 100 datagrams 10 are lost, 10 or more go twice, and 10 are held back until a
 * later one has gone, one at a time, half of these to go more than once. */
#define _DEFAULT_SOURCE
#include <stdint.h>
#include <stdlib.h>
#include <string.h>
#include <sys/socket.h>
#include <unistd.h>

static uint8_t held[128];
static size_t held_length;
static struct sockaddr_storage held_to;

ssize_t lossy_sendto(int udp, const void *bytes, size_t length, int flags, const struct sockaddr *to, socklen_t size)
{
    static int seeded;
    if (!seeded)
        srandom((unsigned)getpid()), seeded = 1;
    long chance = random() % 100;
    if (chance < 10)
        return (ssize_t)length;
    if (chance < 20 && held_length == 0 && length <= sizeof held) {
        memcpy(held, bytes, held_length = length);
        memcpy(&held_to, to, size);
        return (ssize_t)length;
    }
    if (chance < 30)
        sendto(udp, bytes, length, flags, to, size);
    sendto(udp, bytes, length, flags, to, size);
    if (held_length > 0 && chance >= 60) {
        sendto(udp, held, held_length, flags, (struct sockaddr *)&held_to, size);
        if (chance < 80)
            held_length = 0;
    }
    return (ssize_t)length;
}
