/* What becomes of a host that breaks one of the rules of docs/HOSTS.md. Each function is a short run through the calls, every one
 * of which returns 0: the library cannot see that a rule is broken. Beside it stands the same run with the rule kept. */
#include "sigma.h"

#include <stdio.h>
#include <stdlib.h>
#include <string.h>

enum { SERVERS = 4, CLIENTS = 3, PLACES = 2000 };

struct letter {
    uint32_t words[SIGMA_READ_WORDS];
    int in_transit;
    int taken;                          /* by a server since its last start */
};

static const char *run;
static uint32_t n, m;
static struct sigma_host servers[SERVERS + 1];
static uint32_t clients[CLIENTS + 1][SIGMA_CLIENT_WORDS];
static struct letter letters[PLACES];
static size_t count;

static void require(int ok, const char *what)
{
    if (!ok) {
        printf("wrong in '%s': %s\n", run, what);
        exit(1);
    }
}

/* Takes apart what a step sent. */
static void post(const uint8_t *out, uint32_t bytes, uint32_t messages)
{
    uint32_t at, posted = 0;
    for (at = 0; at < bytes; at += letters[count++].words[SIGMA_READ_BYTES], posted++) {
        require(count < PLACES, "too many messages");
        require(sigma_read(out + at, bytes - at, letters[count].words, SIGMA_READ_WORDS) == 0, "a message can be read");
        letters[count].in_transit = 1;
        letters[count].taken = 0;
    }
    require(posted == messages, "as many as it says");
}

static void new_server(uint32_t j)
{
    memset(&servers[j], 0, sizeof servers[j]);
    servers[j].n = n;
    servers[j].id = j;
}

static void new_client(uint32_t k)
{
    require(sigma_client_new(n, m, k, clients[k], SIGMA_CLIENT_WORDS) == 0, "a new client");
}

/* A run of a setting that is accepted, or has this verdict. */
static void begin(const char *name, uint32_t of_n, uint32_t of_m, uint32_t f, uint32_t verdict)
{
    uint32_t words[SIGMA_SETTING_WORDS], j;
    run = name;
    n = of_n;
    m = of_m;
    count = 0;
    require(sigma_setting(n, m, f, words, SIGMA_SETTING_WORDS) == verdict, "the setting");
    for (j = 1; j <= n; j++)
        new_server(j);
    for (j = 1; j <= CLIENTS; j++)
        new_client(j);
}

static uint32_t section(uint32_t k)
{
    return clients[k][SIGMA_CLIENT_SECTION];
}

static int inside(uint32_t k)
{
    return section(k) == SIGMA_CRITICAL;
}

static int two_inside(void)
{
    return inside(1) + inside(2) + inside(3) >= 2;
}

static void try_to_enter(uint32_t k)
{
    uint32_t sent[SIGMA_SENT_WORDS];
    uint8_t out[SIGMA_CLIENT_OUT];
    require(sigma_client_begin(clients[k], SIGMA_CLIENT_WORDS, out, sizeof out, sent, SIGMA_SENT_WORDS) == 0, "a client tries");
    post(out, sent[SIGMA_SENT_BYTES], sent[SIGMA_SENT_MESSAGES]);
}

static void leave(uint32_t k)
{
    uint32_t sent[SIGMA_SENT_WORDS];
    uint8_t out[SIGMA_CLIENT_OUT];
    require(sigma_client_exit(clients[k], SIGMA_CLIENT_WORDS, out, sizeof out, sent, SIGMA_SENT_WORDS) == 0, "a client leaves");
    post(out, sent[SIGMA_SENT_BYTES], sent[SIGMA_SENT_MESSAGES]);
}

/* Its CHECK is on its way, where it has an owner. */
static void check(uint32_t j)
{
    uint8_t out[SIGMA_SERVER_OUT];
    require(sigma_host_check(&servers[j], out, sizeof out) == 0, "a server checks");
    post(out, servers[j].bytes, servers[j].sent);
}

static void suspect(uint32_t j)
{
    uint8_t out[SIGMA_SERVER_OUT];
    require(sigma_host_suspect(&servers[j], out, sizeof out) == 0, "a server gives its owner up");
    post(out, servers[j].bytes, servers[j].sent);
}

/* Hands a message over; how many are sent for it. */
static uint32_t hand_over(struct letter *letter)
{
    uint32_t *words = letter->words, kind = words[SIGMA_MESSAGE_KIND], sent[SIGMA_SENT_WORDS];
    uint8_t out[SIGMA_CLIENT_OUT];
    letter->in_transit = 0;
    if (kind == SIGMA_RESPONSE || kind == SIGMA_CHECK) {
        require(sigma_client_message(clients[words[SIGMA_MESSAGE_CLIENT]], SIGMA_CLIENT_WORDS, words, SIGMA_MESSAGE_WORDS, out,
                                     sizeof out, sent, SIGMA_SENT_WORDS) == 0, "a client takes a message");
    } else {
        struct sigma_host *server = &servers[words[SIGMA_MESSAGE_SERVER]];
        require(sigma_host_message(server, words, SIGMA_MESSAGE_WORDS, out, sizeof out) == 0, "a server takes a message");
        sent[SIGMA_SENT_MESSAGES] = server->sent;
        sent[SIGMA_SENT_BYTES] = server->bytes;
        letter->taken = 1;
    }
    post(out, sent[SIGMA_SENT_BYTES], sent[SIGMA_SENT_MESSAGES]);
    return sent[SIGMA_SENT_MESSAGES];
}

/* The first message of this kind between the two that is in transit, or was; of a RESPONSE, one that names this owner. */
static struct letter *find(int in_transit, uint32_t kind, uint32_t k, uint32_t j, uint32_t owner)
{
    size_t i;
    for (i = 0; i < count; i++) {
        const uint32_t *words = letters[i].words;
        if (letters[i].in_transit == in_transit && words[SIGMA_MESSAGE_KIND] == kind && words[SIGMA_MESSAGE_CLIENT] == k &&
            words[SIGMA_MESSAGE_SERVER] == j && words[SIGMA_MESSAGE_OWNER] == owner)
            return &letters[i];
    }
    require(0, "no such message");
    return NULL;
}

/* A message of client k for server j, or a CHECK for it. */
static uint32_t deliver(uint32_t kind, uint32_t k, uint32_t j)
{
    return hand_over(find(1, kind, k, j, 0));
}

static uint32_t deliver_again(uint32_t kind, uint32_t k, uint32_t j)
{
    return hand_over(find(0, kind, k, j, 0));
}

static void lose(uint32_t kind, uint32_t k, uint32_t j)
{
    find(1, kind, k, j, 0)->in_transit = 0;
}

/* Server j's answer to client k that names this owner. */
static uint32_t answer(uint32_t k, uint32_t j, uint32_t owner)
{
    return hand_over(find(1, SIGMA_RESPONSE, k, j, owner));
}

static uint32_t answer_again(uint32_t k, uint32_t j, uint32_t owner)
{
    return hand_over(find(0, SIGMA_RESPONSE, k, j, owner));
}

/* Client k asks server j, which has no owner, and takes the answer. */
static void gets(uint32_t k, uint32_t j)
{
    deliver(SIGMA_REQUEST, k, j);
    require(servers[j].owner == k, "it is the owner");
    answer(k, j, k);
}

/* The record is new. What the server had taken from clients that still wait or are inside is in transit again, or is not. */
static void restart(uint32_t j, int delivered_again)
{
    size_t i;
    new_server(j);
    for (i = 0; i < count; i++) {
        const uint32_t *words = letters[i].words, *client = clients[words[SIGMA_MESSAGE_CLIENT]];
        if (letters[i].taken && words[SIGMA_MESSAGE_SERVER] == j) {
            letters[i].taken = 0;
            letters[i].in_transit = delivered_again && client[SIGMA_CLIENT_SECTION] != SIGMA_REMAINDER &&
                                    client[SIGMA_CLIENT_TIMESTAMP] == words[SIGMA_MESSAGE_TIMESTAMP];
        }
    }
}

static int quiet(void)
{
    size_t i;
    for (i = 0; i < count; i++)
        if (letters[i].in_transit)
            return 0;
    return 1;
}

/* Delivers what is in transit, in the order in which it was sent, up to so many messages; never are two inside. */
static void play_on(uint32_t most)
{
    size_t i;
    for (i = 0; i < count && most > 0; i++)
        if (letters[i].in_transit) {
            hand_over(&letters[i]);
            require(!two_inside(), "two are inside");
            most--;
            i = (size_t)-1;
        }
}

/* With the rule kept client k asks and waits, and enters when the one that is inside has left. */
static void enters_after(uint32_t k, uint32_t other)
{
    play_on(200);
    require(inside(other) && !inside(k), "it asks and waits");
    leave(other);
    play_on(200);
    require(inside(k) && quiet(), "until the other has left");
}

/* An answer is delivered once. Client 2 counts server 2, yields it to client 1, which enters by it; the same answer once more,
 * and client 2 counts what it has given away. No server is ever down. */
static void an_answer_delivered_twice(int twice)
{
    begin("an answer delivered twice", 3, 2, 0, 0);
    try_to_enter(1);
    try_to_enter(2);
    gets(1, 1);
    deliver(SIGMA_REQUEST, 2, 1);
    deliver(SIGMA_REQUEST, 2, 2);
    deliver(SIGMA_REQUEST, 1, 2);
    answer(2, 1, 1);
    require(answer(2, 2, 2) == 2, "not all is its own: YIELD to server 2, INQUIRY to server 1");
    deliver(SIGMA_YIELD, 2, 2);
    answer(1, 2, 1);
    require(inside(1) && servers[1].owner == 1 && servers[2].owner == 1, "client 1 is inside by servers 1 and 2");
    gets(2, 3);
    require(!inside(2), "client 2 has server 3 alone");
    if (twice) {
        answer_again(2, 2, 2);
        require(two_inside(), "client 2 is inside too, by servers 2 and 3");
        return;
    }
    enters_after(2, 1);
}

/* A YIELD is delivered once. Client 2 yields server 2 while nobody else wants it, gets it again, and enters by it; the same YIELD
 * once more, and server 2 goes to client 1, which has come to wait there. */
static void a_yield_delivered_twice(int twice)
{
    begin("a YIELD delivered twice", 3, 2, 0, 0);
    try_to_enter(1);
    try_to_enter(2);
    gets(1, 1);
    deliver(SIGMA_REQUEST, 2, 1);
    answer(2, 1, 1);
    deliver(SIGMA_REQUEST, 2, 2);
    require(answer(2, 2, 2) == 2, "YIELD to server 2, INQUIRY to server 1");
    deliver(SIGMA_YIELD, 2, 2);
    deliver(SIGMA_REQUEST, 1, 2);
    answer(2, 2, 2);
    gets(2, 3);
    require(inside(2) && servers[2].owner == 2 && servers[3].owner == 2, "client 2 is inside by servers 2 and 3");
    if (twice) {
        deliver_again(SIGMA_YIELD, 2, 2);
        answer(1, 2, 1);
        require(two_inside(), "client 1 is inside too, by servers 1 and 2");
        return;
    }
    enters_after(1, 2);
}

/* Over one client's wait and turn at most f servers are ever down, here one; not two one after the other. While client 1 is
 * inside by servers 1, 2 and 3, server 1 restarts, and then server 2: client 2 enters by them and server 4. All that they had
 * taken is in transit again, and late. With the second restart behind client 1's turn, client 2 is alone. */
static void servers_restarted_one_after_the_other(int in_one_turn)
{
    begin("servers restarted one after the other", 4, 3, 1, 0);
    try_to_enter(1);
    gets(1, 1);
    gets(1, 2);
    gets(1, 3);
    require(inside(1), "client 1 is inside");
    restart(1, 1);
    try_to_enter(2);
    gets(2, 1);
    gets(2, 4);
    require(!inside(2), "client 2 has two");
    if (in_one_turn) {
        restart(2, 1);
        gets(2, 2);
        require(two_inside(), "and a third");
        return;
    }
    play_on(200);
    require(inside(1) && !inside(2), "client 2 asks and waits");
    leave(1);
    restart(2, 1);
    play_on(200);
    require(inside(2) && quiet(), "until client 1 has left");
}

/* The same, where client 1 waits: it has counted servers 1 and 2 before they restart, and enters with server 3 last. */
static void servers_restarted_in_one_wait(int both)
{
    begin("servers restarted in one wait", 4, 3, 1, 0);
    try_to_enter(1);
    try_to_enter(2);
    gets(1, 1);
    gets(1, 2);
    gets(2, 4);
    restart(1, 1);
    deliver(SIGMA_REQUEST, 2, 1);
    if (both) {
        restart(2, 1);
        gets(2, 2);
        answer(2, 1, 2);
        require(inside(2), "client 2 is inside by servers 1, 2 and 4");
        gets(1, 3);
        require(two_inside(), "client 1 is inside too, by servers 1, 2 and 3");
        return;
    }
    gets(1, 3);
    require(inside(1), "client 1 is inside by servers 1, 2 and 3");
    enters_after(2, 1);
}

/* A message is from whom it says. Somebody else's RELEASE in client 1's name frees its server, and client 2 gets in beside it. */
static void a_release_in_anothers_name(int checked)
{
    begin("a RELEASE in another's name", 1, 1, 0, 0);
    try_to_enter(1);
    gets(1, 1);
    try_to_enter(2);
    deliver(SIGMA_REQUEST, 2, 1);
    if (!checked) {
        uint32_t forged[SIGMA_MESSAGE_WORDS] = {SIGMA_RELEASE, 1, 1, clients[1][SIGMA_CLIENT_TIMESTAMP], 0};
        uint8_t out[SIGMA_SERVER_OUT];
        require(sigma_host_message(&servers[1], forged, SIGMA_MESSAGE_WORDS, out, sizeof out) == 0, "the server believes it");
        post(out, servers[1].bytes, servers[1].sent);
        answer(2, 1, 2);
        require(two_inside(), "client 2 is inside too");
        return;
    }
    play_on(200);
    require(inside(1) && !inside(2), "client 2 asks and waits");
}

/* A number is one client's, and that client runs once. Client 1 is inside; another process under its number, which has had a turn before,
 * asks with a later timestamp: the server takes it for the same client, which has gone on, and lets it in. */
static void two_clients_of_one_number(int one_number)
{
    uint32_t first[SIGMA_CLIENT_WORDS], k = one_number ? 1 : 2;
    begin("two clients of one number", 1, 1, 0, 0);
    try_to_enter(k);
    gets(k, 1);
    leave(k);
    deliver(SIGMA_RELEASE, k, 1);
    memcpy(first, clients[k], sizeof first);
    if (one_number)
        new_client(1);
    try_to_enter(1);
    gets(1, 1);
    require(inside(1), "client 1 is inside");
    if (one_number) {
        /* The other process's turn at being client 1. */
        memcpy(clients[1], first, sizeof first);
        try_to_enter(1);
        gets(1, 1);
        require(inside(1), "and inside once more, in another process");
        return;
    }
    try_to_enter(2);
    play_on(200);
    require(inside(1) && !inside(2), "client 2 asks and waits");
}

/* The setting is one that sigma_setting accepts. 3, 2, 1 is refused 8, and the players run with it all the same: one restart,
 * which f allows, and two are inside. */
static void an_unsafe_setting(void)
{
    begin("an unsafe setting", 3, 2, 1, 8);
    try_to_enter(1);
    gets(1, 1);
    gets(1, 2);
    require(inside(1), "client 1 is inside by servers 1 and 2");
    restart(1, 1);
    try_to_enter(2);
    gets(2, 1);
    gets(2, 3);
    require(two_inside(), "client 2 is inside too, by servers 1 and 3");
}

/* Only an owner that has crashed for good is given up. Client 1 is inside by servers 1, 2 and 3, client 2 waits at 1 and 2 and
 * has 4: two servers that give client 1 up let client 2 in, or one where another has restarted, as f allows. One alone does not. */
static void a_living_owner_given_up(int suspicions, int restarts)
{
    begin("a living owner given up", 4, 3, 1, 0);
    try_to_enter(1);
    gets(1, 1);
    gets(1, 2);
    gets(1, 3);
    try_to_enter(2);
    gets(2, 4);
    deliver(SIGMA_REQUEST, 2, 1);
    suspect(1);
    answer(2, 1, 2);
    if (suspicions == 2) {
        deliver(SIGMA_REQUEST, 2, 2);
        suspect(2);
        answer(2, 2, 2);
    } else if (restarts == 1) {
        restart(2, 1);
        gets(2, 2);
    }
    if (suspicions + restarts == 2) {
        require(two_inside(), "client 2 is inside too, by servers 1, 2 and 4");
        return;
    }
    enters_after(2, 1);
}

/* A simulation knows who lives, and refuses what a host should not do. */
static void a_living_owner_given_up_in_a_simulation(void)
{
    static uint32_t words[SIGMA_SIMULATION_WORDS];
    static const uint32_t events[][3] = {{SIGMA_EVENT_TRY, 1, 0}, {SIGMA_EVENT_TAKE, 1, 0}, {SIGMA_EVENT_MISS, 1, 20},
                                         {SIGMA_EVENT_FALL, 1, 0}, {SIGMA_EVENT_MISS, 1, 0}, {SIGMA_EVENT_MISS, 1, 15}};
    uint32_t words_of_answer[SIGMA_ANSWER_WORDS];
    size_t i;
    run = "a living owner given up in a simulation";
    require(sigma_simulation_new(4, 3, 1, 2, words, SIGMA_SIMULATION_WORDS) == 0, "a simulation");
    for (i = 0; i < sizeof events / sizeof *events; i++)
        require(sigma_simulation_event(words, SIGMA_SIMULATION_WORDS, events[i][0], events[i][1], words_of_answer,
                                       SIGMA_ANSWER_WORDS) == events[i][2], "it is refused while the owner lives");
}

/* A client that has lost its record takes a new number. Under its old one it begins with timestamp 1 again, and servers that know
 * it with a later one pass its REQUEST over: it waits in vain. Asked by CHECK for the later one it gives that up, and still
 * waits: its REQUEST is gone. */
static void a_client_restarted_under_its_old_number_waits(void)
{
    uint32_t j;
    begin("a client restarted under its old number waits", 4, 3, 1, 0);
    try_to_enter(1);
    play_on(200);
    leave(1);
    play_on(200);
    try_to_enter(1);
    play_on(200);
    require(inside(1) && quiet() && clients[1][SIGMA_CLIENT_TIMESTAMP] == 3, "its second turn has timestamp 3");
    new_client(1);
    try_to_enter(1);
    for (j = 1; j <= n; j++)
        require(deliver(SIGMA_REQUEST, 1, j) == 0 && servers[j].owner == 1 && servers[j].owner_timestamp == 3, "passed over");
    require(quiet() && section(1) == SIGMA_TRYING && clients[1][SIGMA_CLIENT_TIMESTAMP] == 1, "it waits in vain");
    for (j = 1; j <= n; j++) {
        check(j);
        require(deliver(SIGMA_CHECK, 1, j) == 1 && deliver(SIGMA_RELEASE, 1, j) == 0 && servers[j].owner == 0, "it gives 3 up");
    }
    require(quiet() && section(1) == SIGMA_TRYING, "and still waits in vain");
    try_to_enter(3);
    play_on(200);
    require(inside(3), "a client with a new number enters");
}

/* The same can let two in. A client that has left is asked by CHECK, so that two RELEASEs of timestamp 1 are sent. Restarted
 * under its old number it takes timestamp 1 again, and the second RELEASE, late, ends a turn that it was not sent for. */
static void a_client_restarted_under_its_old_number_enters(int old_number)
{
    uint32_t k = old_number ? 1 : 3;
    begin("a client restarted under its old number enters", 1, 1, 0, 0);
    try_to_enter(1);
    gets(1, 1);
    leave(1);
    check(1);
    deliver(SIGMA_RELEASE, 1, 1);
    require(deliver(SIGMA_CHECK, 1, 1) == 1, "a second RELEASE");
    new_client(k);
    try_to_enter(k);
    gets(k, 1);
    try_to_enter(2);
    deliver(SIGMA_REQUEST, 2, 1);
    deliver(SIGMA_RELEASE, 1, 1);
    require(inside(k), "the restarted client is inside");
    if (old_number) {
        answer(2, 1, 2);
        require(two_inside(), "and client 2 is too");
        return;
    }
    play_on(200);
    require(!inside(2), "client 2 asks and waits");
    leave(k);
    play_on(200);
    require(inside(2) && quiet(), "until the other has left");
}

/* A server asks its owner by CHECK from time to time. One that waits or is inside with this timestamp is silent; one that has
 * left answers with RELEASE, and the server is free though the RELEASE of its leaving was lost. Without CHECK the next client
 * waits for ever. */
static void a_release_lost(int checked)
{
    begin("a RELEASE lost", 1, 1, 0, 0);
    try_to_enter(1);
    deliver(SIGMA_REQUEST, 1, 1);
    check(1);
    require(deliver(SIGMA_CHECK, 1, 1) == 0, "silent while it waits");
    answer(1, 1, 1);
    check(1);
    require(inside(1) && deliver(SIGMA_CHECK, 1, 1) == 0, "silent while it is inside");
    leave(1);
    lose(SIGMA_RELEASE, 1, 1);
    try_to_enter(2);
    play_on(200);
    require(!inside(2) && servers[1].owner == 1, "nobody is inside, and client 2 waits");
    if (checked) {
        check(1);
        play_on(200);
        require(inside(2) && quiet(), "until the server has asked");
    }
}

/* What a restarted server had taken from clients that wait is delivered again. Client 2's REQUEST is lost with the record: its
 * INQUIRY is met with silence, and it waits in vain beside a free server. (The restart is one more than f; client 1 has left, so
 * that no two can be inside for it.) */
static void a_request_not_delivered_again(int again)
{
    begin("a REQUEST not delivered again", 1, 1, 0, 0);
    try_to_enter(1);
    gets(1, 1);
    try_to_enter(2);
    deliver(SIGMA_REQUEST, 2, 1);
    require(answer(2, 1, 1) == 1, "INQUIRY");
    leave(1);
    restart(1, again);
    deliver(SIGMA_RELEASE, 1, 1);
    require(deliver(SIGMA_INQUIRY, 2, 1) == 0, "silence, as it has no owner");
    if (!again) {
        require(quiet() && section(2) == SIGMA_TRYING && servers[1].owner == 0, "client 2 waits in vain");
        return;
    }
    play_on(200);
    require(inside(2) && quiet(), "client 2 is inside");
}

/* With four servers and f = 1 it takes two that have lost it: where one restarts the three others let the client in. An answer
 * that a server had not sent yet is lost with its record. */
static void requests_not_delivered_again(uint32_t lost, int again)
{
    uint32_t j;
    begin("REQUESTs not delivered again", 4, 3, 1, 0);
    try_to_enter(1);
    for (j = 1; j <= n; j++)
        deliver(SIGMA_REQUEST, 1, j);
    for (j = 1; j <= lost; j++) {
        find(1, SIGMA_RESPONSE, 1, j, 1)->in_transit = 0;
        restart(j, again);
    }
    play_on(200);
    require(quiet() && inside(1) == (again || lost == 1), "inside, or in vain");
}

/* What is delivered again is the same message, and goes over the same number: not a second one beside a first that is only late.
 * Both copies of client 1's REQUEST reach the restarted server, the second when client 1 has left: the server keeps an owner that
 * wants nothing, and client 2 waits until CHECK. */
static void a_request_sent_again_beside_the_late_one(int beside)
{
    begin("a REQUEST sent again beside the late one", 1, 1, 0, 0);
    try_to_enter(1);
    deliver(SIGMA_REQUEST, 1, 1);
    restart(1, 1);
    gets(1, 1);
    require(inside(1), "client 1 is inside");
    leave(1);
    deliver(SIGMA_RELEASE, 1, 1);
    if (beside)
        deliver_again(SIGMA_REQUEST, 1, 1);
    try_to_enter(2);
    play_on(200);
    require(inside(2) == !beside && servers[1].owner == (beside ? 1u : 2u), "an owner that has left");
    if (beside) {
        check(1);
        play_on(200);
        require(inside(2), "until the server has asked");
    }
}

int main(void)
{
    an_answer_delivered_twice(1);
    an_answer_delivered_twice(0);
    a_yield_delivered_twice(1);
    a_yield_delivered_twice(0);
    servers_restarted_one_after_the_other(1);
    servers_restarted_one_after_the_other(0);
    servers_restarted_in_one_wait(1);
    servers_restarted_in_one_wait(0);
    two_clients_of_one_number(1);
    two_clients_of_one_number(0);
    a_release_in_anothers_name(0);
    a_release_in_anothers_name(1);
    an_unsafe_setting();
    a_living_owner_given_up(2, 0);
    a_living_owner_given_up(1, 1);
    a_living_owner_given_up(1, 0);
    a_living_owner_given_up_in_a_simulation();
    a_client_restarted_under_its_old_number_waits();
    a_client_restarted_under_its_old_number_enters(1);
    a_client_restarted_under_its_old_number_enters(0);
    a_release_lost(1);
    a_release_lost(0);
    a_request_not_delivered_again(0);
    a_request_not_delivered_again(1);
    requests_not_delivered_again(1, 0);
    requests_not_delivered_again(2, 0);
    requests_not_delivered_again(2, 1);
    a_request_sent_again_beside_the_late_one(1);
    a_request_sent_again_beside_the_late_one(0);
    puts("rules ok");
    return 0;
}
