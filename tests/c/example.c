/* README's example as it stands, between a small network in memory and 5 clients: `readme.c` is its text, which the test takes out of
 * README.md. The host around it keeps every rule: a message is delivered at most once, late and out of order; a server that
 * restarts begins with a new record, and what it had taken from clients still waiting or inside is delivered again; and over one
 * client's wait and turn at most f = 1 different server is ever down. So no two clients are ever inside, all get their turns, and
 * no call is refused. */
#include "readme.c"

#include <stdio.h>
#include <stdlib.h>
#include <string.h>

enum { SERVERS = 4, THRESHOLD = 3, CLIENTS = 5, TURNS = 200, PLACES = 1000, STEPS = 3000000, SEEDS = 20 };

static const uint32_t numbers[CLIENTS] = {65535, 1, 40000, 7, 2};

struct mail {
    uint8_t bytes[SIGMA_MESSAGE_MAX];
    size_t length;
    uint32_t words[SIGMA_READ_WORDS];
    uint32_t from;                              /* the step from which on it may be delivered */
};

struct box {
    struct mail mail[PLACES];
    size_t length;
};

struct client {
    uint32_t record[SIGMA_CLIENT_WORDS];
    uint32_t turns;
    int waits_or_is_inside;
    unsigned down;                              /* since it began to wait: bit j where server j was down */
};

static struct sigma_host servers[SERVERS + 1];  /* from 1 */
static int up[SERVERS + 1];
static struct box taken[SERVERS + 1];           /* by a server since its last start */
static struct client clients[CLIENTS];
static struct box transit;
static uint32_t step;
static uint64_t state;

static void require(int ok, const char *what)
{
    if (!ok) {
        printf("wrong at step %lu: %s\n", (unsigned long)step, what);
        exit(1);
    }
}

/* One of 0 to n - 1. */
static uint32_t below(uint32_t n)
{
    state ^= state >> 12;
    state ^= state << 25;
    state ^= state >> 27;
    return (uint32_t)((state * 0x2545F4914F6CDD1Du) >> 33) % n;
}

static void put(struct box *box, const struct mail *mail)
{
    require(box->length < PLACES, "too many messages");
    box->mail[box->length++] = *mail;
}

static struct mail take_out(struct box *box, size_t at)
{
    struct mail mail = box->mail[at];
    box->mail[at] = box->mail[--box->length];
    return mail;
}

static struct client *client_of(uint32_t number)
{
    int i;
    for (i = 0; i < CLIENTS; i++)
        if (numbers[i] == number)
            return &clients[i];
    require(0, "no such client");
    return NULL;
}

static int goes_to_a_client(const struct mail *mail)
{
    return mail->words[SIGMA_MESSAGE_KIND] == SIGMA_RESPONSE || mail->words[SIGMA_MESSAGE_KIND] == SIGMA_CHECK;
}

/* One message, whole and alone. One of three is long on its way. */
static struct mail posted(const uint8_t *message, size_t length)
{
    struct mail mail;
    memset(&mail, 0, sizeof mail);
    require(length <= sizeof mail.bytes && sigma_read(message, length, mail.words, SIGMA_READ_WORDS) == 0, "a message");
    require(mail.words[SIGMA_READ_BYTES] == length, "and no more");
    memcpy(mail.bytes, message, length);
    mail.length = length;
    mail.from = step + (below(3) == 0 ? below(1500) : 0);
    return mail;
}

void send_to_server(uint32_t server, const uint8_t *message, size_t length)
{
    struct mail mail = posted(message, length);
    require(!goes_to_a_client(&mail) && mail.words[SIGMA_MESSAGE_SERVER] == server && server <= SERVERS, "to this server");
    put(&transit, &mail);
}

void send_to_client(uint32_t client, const uint8_t *message, size_t length)
{
    struct mail mail = posted(message, length);
    require(goes_to_a_client(&mail) && mail.words[SIGMA_MESSAGE_CLIENT] == client && client_of(client) != NULL, "to this client");
    put(&transit, &mail);
}

static void start(void)
{
    uint32_t j;
    int i;
    memset(clients, 0, sizeof clients);
    transit.length = 0;
    step = 0;
    for (j = 1; j <= SERVERS; j++) {
        server_starts(&servers[j], SERVERS, j);
        up[j] = 1;
        taken[j].length = 0;
    }
    for (i = 0; i < CLIENTS; i++)
        require(client_starts(clients[i].record, SERVERS, THRESHOLD, numbers[i]) == 0, "a client starts");
}

/* Its client waits still, or is inside, as it did when it sent the message. */
static int is_of_a_wait(const struct mail *mail)
{
    const struct client *client = client_of(mail->words[SIGMA_MESSAGE_CLIENT]);
    return client->waits_or_is_inside && client->record[SIGMA_CLIENT_TIMESTAMP] == mail->words[SIGMA_MESSAGE_TIMESTAMP];
}

/* Not to a server that is down. */
static void deliver(size_t at)
{
    struct mail mail;
    size_t before;
    uint32_t server = transit.mail[at].words[SIGMA_MESSAGE_SERVER];
    if (transit.mail[at].from > step || (!goes_to_a_client(&transit.mail[at]) && !up[server]))
        return;
    mail = take_out(&transit, at);
    if (goes_to_a_client(&mail)) {
        struct client *client = client_of(mail.words[SIGMA_MESSAGE_CLIENT]);
        int was_inside = client_is_inside(client->record);
        require(client_takes(client->record, mail.bytes, mail.length) == 0, "a client takes a message");
        if (!was_inside && client_is_inside(client->record))
            client->turns++;
    } else {
        before = transit.length;
        require(server_takes(&servers[server], mail.bytes, mail.length) == 0, "a server takes a message");
        require(transit.length == before + servers[server].sent, "all that it sent is on its way");
        if (is_of_a_wait(&mail))
            put(&taken[server], &mail);
    }
}

/* What a server took from a wait or turn that is over is not delivered again. */
static void forget_what_is_over(void)
{
    uint32_t j;
    size_t i;
    for (j = 1; j <= SERVERS; j++)
        for (i = taken[j].length; i > 0; i--)
            if (!is_of_a_wait(&taken[j].mail[i - 1]))
                take_out(&taken[j], i - 1);
}

/* Both send a message to each server. */
static void try_or_leave(struct client *client)
{
    size_t before = transit.length;
    uint32_t j;
    if (client_is_inside(client->record)) {
        require(client_leaves(client->record) == 0 && transit.length == before + SERVERS, "a client leaves");
        client->waits_or_is_inside = 0;
        forget_what_is_over();
    } else if (!client->waits_or_is_inside && client->turns < TURNS) {
        client->waits_or_is_inside = 1;
        client->down = 0;
        for (j = 1; j <= SERVERS; j++)
            if (!up[j])
                client->down |= 1u << j;
        require(client_tries(client->record) == 0 && transit.length == before + SERVERS, "a client tries");
    }
}

/* A server may go down if all others are up, and no client that waits or is inside has seen another one down. */
static int may_go_down(uint32_t j)
{
    uint32_t other;
    int i;
    for (other = 1; other <= SERVERS; other++)
        if (!up[other])
            return 0;
    for (i = 0; i < CLIENTS; i++)
        if (clients[i].waits_or_is_inside && (clients[i].down & ~(1u << j)) != 0)
            return 0;
    return 1;
}

static void go_down(uint32_t j)
{
    int i;
    up[j] = 0;
    for (i = 0; i < CLIENTS; i++)
        if (clients[i].waits_or_is_inside)
            clients[i].down |= 1u << j;
}

/* What it had taken is on its way again. */
static void come_up(uint32_t j)
{
    up[j] = 1;
    server_starts(&servers[j], SERVERS, j);
    while (taken[j].length > 0) {
        struct mail mail = take_out(&taken[j], 0);
        mail.from = step + below(1500);
        put(&transit, &mail);
    }
}

/* A server's clock: CHECK to its owner. */
static void check(uint32_t j)
{
    size_t before = transit.length;
    require(server_checks(&servers[j]) == 0 && transit.length == before + (servers[j].owner != 0), "a server checks");
}

static int inside(void)
{
    int i, count = 0;
    for (i = 0; i < CLIENTS; i++)
        count += client_is_inside(clients[i].record);
    return count;
}

static int all_done(void)
{
    int i;
    for (i = 0; i < CLIENTS; i++)
        if (clients[i].turns < TURNS || clients[i].waits_or_is_inside)
            return 0;
    return 1;
}

/* Once all have had their turns the servers' clocks free every server, and it is quiet. */
static void settle(void)
{
    uint32_t j, owners = 1;
    for (j = 1; j <= SERVERS; j++)
        if (!up[j])
            come_up(j);
    while (transit.length > 0 || owners > 0) {
        require(++step < STEPS, "it never is quiet");
        if (transit.length > 0) {
            deliver(below((uint32_t)transit.length));
            continue;
        }
        for (j = 1, owners = 0; j <= SERVERS; j++) {
            owners += servers[j].owner != 0;
            check(j);
        }
    }
    for (j = 1; j <= SERVERS; j++)
        require(servers[j].owner == 0 && servers[j].queue_length == 0, "a server is free");
}

static void run(uint64_t seed)
{
    uint32_t restarts[SERVERS + 1] = {0}, j;
    state = seed * 0x9E3779B97F4A7C15u | 1;
    start();
    while (!all_done()) {
        require(++step < STEPS, "someone waits in vain");
        j = 1 + below(SERVERS);
        switch (below(64)) {
        case 0:
            if (up[j])
                check(j);
            break;
        case 1:
            if (!up[j]) {
                come_up(j);
            } else if (below(8) == 0 && may_go_down(j)) {
                go_down(j);
                restarts[j]++;
            }
            break;
        case 2: case 3:
            try_or_leave(&clients[below(CLIENTS)]);
            break;
        default:
            if (transit.length > 0)
                deliver(below((uint32_t)transit.length));
        }
        require(inside() <= 1, "two clients are inside");
    }
    settle();
    for (j = 1; j <= SERVERS; j++)
        require(restarts[j] >= 10, "every server restarts");
}

int main(void)
{
    uint64_t seed;
    for (seed = 1; seed <= SEEDS; seed++)
        run(seed);
    puts("example ok");
    return 0;
}
