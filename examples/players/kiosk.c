/* Kiosk K, which wants the wall again and again: kiosk K N M F [PACE]. Of N keepers M must answer for it, and F may be down over a wait and turn.
 * What asks again is held back for PACE milliseconds, 5 if it is not given. A kiosk that is killed keeps its votes, and all others wait for
 * good: nobody tells these keepers (docs/HOSTS.md, suspicion).
 * Each line says what, and at which microsecond: try, in, or out with the messages that were sent and taken so far. */
#include "link.h"

enum { INSIDE = 5000, AWAY = 10000 }; /* microseconds inside, and at most away from one turn to the next try */

static uint32_t kiosk[SIGMA_CLIENT_WORDS], sent[SIGMA_SENT_WORDS];
static uint8_t out[SIGMA_CLIENT_OUT];
static uint64_t then, pace = 5000; /* when it leaves or tries next */

static void tell(const char *what)
{
    printf("kiosk %u %s %llu %llu\n", kiosk[SIGMA_CLIENT_ID], what, (unsigned long long)now(), (unsigned long long)messages);
    fflush(stdout);
}

static uint32_t take(const uint32_t *message)
{
    uint32_t was = kiosk[SIGMA_CLIENT_SECTION], refusal;
    refusal = sigma_client_message(kiosk, SIGMA_CLIENT_WORDS, message, SIGMA_MESSAGE_WORDS, out, sizeof out, sent, SIGMA_SENT_WORDS);
    if (refusal == 0)
        link_give(out, sent[SIGMA_SENT_BYTES], pace);
    if (was == SIGMA_TRYING && kiosk[SIGMA_CLIENT_SECTION] == SIGMA_CRITICAL) {
        tell("in");
        then = now() + INSIDE;
    }
    return refusal;
}

int main(int argc, char **argv)
{
    uint32_t number[6] = {0}, words[SIGMA_SETTING_WORDS];
    for (int i = 1; i < argc && i < 6; i++)
        number[i] = (uint32_t)atoi(argv[i]);
    if (argc < 5 || argc > 6 || number[1] >= PEERS || sigma_client_new(number[2], number[3], number[1], kiosk, SIGMA_CLIENT_WORDS) != 0) {
        fputs("usage: kiosk K N M F [PACE], with K below 256\n", stderr);
        return 2;
    }
    if (sigma_setting(number[2], number[3], number[4], words, SIGMA_SETTING_WORDS) != 0) {
        fputs("kiosk: this setting is refused; bin/commission N F proposes thresholds\n", stderr);
        return 1;
    }
    if (argc == 6)
        pace = 1000 * number[5];
    link_open(KIOSKS + (int)number[1], KEEPERS, SIGMA_MESSAGE_SERVER);
    srand(number[1]);
    for (;;) {
        uint32_t section = kiosk[SIGMA_CLIENT_SECTION];
        if (section == SIGMA_REMAINDER && now() >= then) {
            tell("try");
            if (sigma_client_begin(kiosk, SIGMA_CLIENT_WORDS, out, sizeof out, sent, SIGMA_SENT_WORDS) != 0)
                return 1;        /* its timestamps are spent */
            link_give(out, sent[SIGMA_SENT_BYTES], 0);
        } else if (section == SIGMA_CRITICAL && now() >= then) {
            tell("out");
            if (sigma_client_exit(kiosk, SIGMA_CLIENT_WORDS, out, sizeof out, sent, SIGMA_SENT_WORDS) != 0)
                return 1;
            link_give(out, sent[SIGMA_SENT_BYTES], 0);
            then = now() + (uint64_t)(rand() % AWAY);
        }
        link_turn(section == SIGMA_TRYING ? now() + REMIND : then, take);
    }
}
