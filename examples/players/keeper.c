/* Keeper J of N: keeper J N. It forgets everything when it is killed, and starts again by the same command. */
#include "link.h"

enum { CHECK = 250000 }; /* microseconds from one CHECK to the next */

static struct sigma_host keeper;
static uint8_t out[SIGMA_SERVER_OUT];

static uint32_t take(const uint32_t *message)
{
    uint32_t refusal = sigma_host_message(&keeper, message, SIGMA_MESSAGE_WORDS, out, sizeof out);
    if (refusal == 0)
        link_give(out, keeper.bytes, 0);
    return refusal;
}

int main(int argc, char **argv)
{
    if (argc == 3)
        keeper.id = (uint32_t)atoi(argv[1]), keeper.n = (uint32_t)atoi(argv[2]);
    if (sigma_host_check(&keeper, out, sizeof out) != 0) {
        fputs("usage: keeper J N, with J 1 to N and N 1 to 255\n", stderr);
        return 2;
    }
    link_open(KEEPERS + (int)keeper.id, KIOSKS, SIGMA_MESSAGE_CLIENT);
    for (uint64_t then = now() + CHECK;;) {
        link_turn(then, take);
        if (now() >= then) {     /* an owner whose RELEASE was lost answers it with another */
            then = now() + CHECK;
            if (sigma_host_check(&keeper, out, sizeof out) == 0)
                link_give(out, keeper.bytes, 0);
        }
    }
}
