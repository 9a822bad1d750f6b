/* Shows that include/sigma.h is right: both examples of document 01, what each constant promises, one client's way into its critical
 * section and out of it, a server in a struct, its queue filled, a client's timestamps, saved records taken over, a round of yields in
 * one packet, the unsafe run in a simulation, and the example of a script, through the functions as it declares them. */
#include "sigma.h"

#include <assert.h>
#include <stdio.h>
#include <string.h>

static int failures = 0;

static void expect(int ok, const char *what)
{
    if (!ok) {
        printf("wrong: %s\n", what);
        failures++;
    }
}

static int all(const uint32_t *words, size_t length, uint32_t word)
{
    while (length > 0)
        if (words[--length] != word)
            return 0;
    return 1;
}

/* The first message that a step sent is of this kind; its words. */
static int first_is(uint32_t kind, const uint8_t *out, const uint32_t *sent, uint32_t *words)
{
    return sigma_read(out, sent[SIGMA_SENT_BYTES], words, SIGMA_READ_WORDS) == 0 && words[SIGMA_MESSAGE_KIND] == kind;
}

static int sent_are(const uint32_t *sent, uint32_t messages, uint32_t bytes)
{
    return sent[SIGMA_SENT_MESSAGES] == messages && sent[SIGMA_SENT_BYTES] == bytes;
}

static int client_is(const uint32_t *client, uint32_t section, uint32_t timestamp)
{
    return client[SIGMA_CLIENT_SECTION] == section && client[SIGMA_CLIENT_TIMESTAMP] == timestamp;
}

static void round_trip(const uint8_t *bytes, size_t length, const uint32_t *message)
{
    uint32_t words[SIGMA_READ_WORDS] = {0};
    uint8_t out[16];
    memset(out, 0x77, sizeof out);
    expect(sigma_read(bytes, length, words, SIGMA_READ_WORDS) == 0, "read accepts");
    expect(memcmp(words, message, SIGMA_MESSAGE_WORDS * sizeof *message) == 0, "the five words");
    expect(words[SIGMA_READ_BYTES] == length, "the bytes used");
    expect(sigma_write(message, SIGMA_MESSAGE_WORDS, out, sizeof out) == 0, "write accepts");
    expect(memcmp(out, bytes, length) == 0, "the bytes");
    expect(out[length] == 0x77, "the bytes behind stay");
    expect(sigma_write(message, SIGMA_MESSAGE_WORDS, out, length - 1) == 6, "room short");
    expect(sigma_write(message, SIGMA_MESSAGE_WORDS - 1, out, sizeof out) == 5, "four words");
    expect(sigma_read(bytes, length - 1, words, SIGMA_READ_WORDS) == 4, "bytes fewer than the length");
    expect(sigma_read(bytes, length, words, SIGMA_READ_WORDS - 1) == 6, "five words lent");
}

/* Each kind's bytes, the longest message, and the places of a message's words: the numbers are all different. */
static void messages(void)
{
    uint32_t response[SIGMA_MESSAGE_WORDS], words[SIGMA_READ_WORDS], kind;
    uint8_t out[SIGMA_MESSAGE_MAX];
    for (kind = SIGMA_REQUEST; kind <= SIGMA_CHECK; kind++) {
        uint32_t message[SIGMA_MESSAGE_WORDS] = {kind, 7, 4, 9, kind == SIGMA_RESPONSE ? 2u : 0u};
        uint32_t bytes = kind == SIGMA_RESPONSE ? SIGMA_MESSAGE_MAX : 12;
        expect(sigma_write(message, SIGMA_MESSAGE_WORDS, out, bytes - 1) == 6, "a byte too few");
        expect(sigma_write(message, SIGMA_MESSAGE_WORDS, out, bytes) == 0, "just enough");
        expect(sigma_read(out, bytes, words, SIGMA_READ_WORDS) == 0 && words[SIGMA_READ_BYTES] == bytes, "as many are read");
    }
    response[SIGMA_MESSAGE_KIND] = SIGMA_RESPONSE;
    response[SIGMA_MESSAGE_CLIENT] = 7;
    response[SIGMA_MESSAGE_SERVER] = 4;
    response[SIGMA_MESSAGE_TIMESTAMP] = 9;
    response[SIGMA_MESSAGE_OWNER] = 2;
    expect(sigma_write(response, SIGMA_MESSAGE_WORDS, out, sizeof out) == 0, "a response");
    expect(out[2] == 5 && out[4] == 7 && out[6] == 4 && out[8] == 9 && out[12] == 2, "each word in its place");
}

/* The largest client, server and timestamp are accepted, and one more is refused; one more than the largest timestamp is 0. */
static void largest_numbers(void)
{
    uint32_t client[SIGMA_CLIENT_WORDS], server[SIGMA_SERVER_WORDS], id = SIGMA_CLIENT_ID_MAX, n = SIGMA_SERVER_ID_MAX;
    uint32_t message[SIGMA_MESSAGE_WORDS] = {SIGMA_REQUEST, SIGMA_CLIENT_ID_MAX, SIGMA_SERVER_ID_MAX, SIGMA_TIMESTAMP_MAX, 0};
    uint32_t response[SIGMA_MESSAGE_WORDS] = {SIGMA_RESPONSE, 5, 1, SIGMA_TIMESTAMP_MAX, SIGMA_CLIENT_ID_MAX};
    uint32_t sent[SIGMA_SENT_WORDS];
    uint8_t out[SIGMA_MESSAGE_MAX];
    expect(sigma_client_new(n, n, id, client, SIGMA_CLIENT_WORDS) == 0, "the last client, with all servers");
    expect(sigma_client_new(n, n, id + 1, client, SIGMA_CLIENT_WORDS) == 7, "a client too far");
    expect(sigma_client_new(n + 1, n, id, client, SIGMA_CLIENT_WORDS) == 7, "a server too many");
    expect(sigma_client_new(n, n + 1, id, client, SIGMA_CLIENT_WORDS) == 7, "a threshold above n");
    expect(sigma_server_new(n + 1, n, server, SIGMA_SERVER_WORDS) == 7, "one server too many");
    expect(sigma_server_new(n, n + 1, server, SIGMA_SERVER_WORDS) == 7, "a server too far");
    expect(sigma_server_new(n, n, server, SIGMA_SERVER_WORDS) == 0, "the last server");
    expect(sigma_server_message(server, SIGMA_SERVER_WORDS, message, SIGMA_MESSAGE_WORDS, out, sizeof out, sent, SIGMA_SENT_WORDS) == 0 &&
           server[2] == SIGMA_CLIENT_ID_MAX && server[3] == SIGMA_TIMESTAMP_MAX, "the last of all requests");
    expect(sigma_write(message, SIGMA_MESSAGE_WORDS, out, sizeof out) == 0, "which can be written");
    message[SIGMA_MESSAGE_CLIENT]++;
    expect(sigma_write(message, SIGMA_MESSAGE_WORDS, out, sizeof out) == 5, "from a client too far");
    expect(sigma_server_message(server, SIGMA_SERVER_WORDS, message, SIGMA_MESSAGE_WORDS, out, sizeof out, sent, SIGMA_SENT_WORDS) == 5,
           "which no server takes");
    message[SIGMA_MESSAGE_CLIENT]--;
    message[SIGMA_MESSAGE_SERVER]++;
    expect(sigma_write(message, SIGMA_MESSAGE_WORDS, out, sizeof out) == 5, "to a server too far");
    message[SIGMA_MESSAGE_SERVER]--;
    message[SIGMA_MESSAGE_TIMESTAMP]++;
    expect(message[SIGMA_MESSAGE_TIMESTAMP] == 0 && sigma_write(message, SIGMA_MESSAGE_WORDS, out, sizeof out) == 5, "no timestamp");
    expect(sigma_write(response, SIGMA_MESSAGE_WORDS, out, sizeof out) == 0, "the last client owns");
    response[SIGMA_MESSAGE_OWNER]++;
    expect(sigma_write(response, SIGMA_MESSAGE_WORDS, out, sizeof out) == 5, "an owner too far");
}

/* A client of all servers tries and leaves with SIGMA_CLIENT_OUT bytes, and not with one less. Its words stand where they are named. */
static void most_of_a_client(void)
{
    uint32_t client[SIGMA_CLIENT_WORDS], before[SIGMA_CLIENT_WORDS], sent[SIGMA_SENT_WORDS] = {7, 8}, words[SIGMA_READ_WORDS], j;
    uint8_t out[SIGMA_CLIENT_OUT];
    expect(sigma_client_new(SIGMA_SERVER_ID_MAX, 170, 9, client, SIGMA_CLIENT_WORDS) == 0, "255 servers, threshold 170");
    expect(client[SIGMA_CLIENT_N] == 255 && client[SIGMA_CLIENT_M] == 170 && client[SIGMA_CLIENT_ID] == 9, "are in its words");
    expect(client_is(client, SIGMA_REMAINDER, 0) && client[SIGMA_CLIENT_SEEN] == 0 &&
           all(client + SIGMA_CLIENT_RESPONSES, 2 * SIGMA_SERVER_ID_MAX, 0), "it has never tried");
    memcpy(before, client, sizeof client);
    expect(sigma_client_begin(client, SIGMA_CLIENT_WORDS, out, sizeof out - 1, sent, SIGMA_SENT_WORDS) == 6, "a byte too few");
    expect(memcmp(before, client, sizeof client) == 0 && sent_are(sent, 7, 8), "refused, all is as it was");
    expect(sigma_client_begin(client, SIGMA_CLIENT_WORDS, out, sizeof out, sent, SIGMA_SENT_WORDS) == 0, "it tries");
    expect(sent_are(sent, 255, SIGMA_CLIENT_OUT), "all bytes are used");
    expect(sigma_read(out + sizeof out - 12, 12, words, SIGMA_READ_WORDS) == 0 && words[SIGMA_MESSAGE_SERVER] == 255, "the last message");
    for (j = 255; j > 255 - 170; j--) {
        uint32_t response[SIGMA_MESSAGE_WORDS] = {SIGMA_RESPONSE, 9, j, 1, 9}, *place = client + SIGMA_CLIENT_RESPONSES + 2 * (j - 1);
        expect(all(place, 2, 0), "no response yet");
        expect(sigma_client_message(client, SIGMA_CLIENT_WORDS, response, SIGMA_MESSAGE_WORDS, out, 0, sent, SIGMA_SENT_WORDS) == 0 &&
               sent_are(sent, 0, 0) && place[0] == 9 && place[1] == 1, "owner, then timestamp");
    }
    expect(client_is(client, SIGMA_CRITICAL, 1) && client[SIGMA_CLIENT_SEEN] == 1, "it is in");
    expect(sigma_client_exit(client, SIGMA_CLIENT_WORDS, out, sizeof out - 1, sent, SIGMA_SENT_WORDS) == 6, "a byte too few");
    expect(client_is(client, SIGMA_CRITICAL, 1) && sent_are(sent, 0, 0), "refused, all is as it was");
    expect(sigma_client_exit(client, SIGMA_CLIENT_WORDS, out, sizeof out, sent, SIGMA_SENT_WORDS) == 0, "it leaves");
    expect(client_is(client, SIGMA_REMAINDER, 2) && sent_are(sent, 255, SIGMA_CLIENT_OUT), "all bytes are used");
    expect(sigma_client_exit(client, SIGMA_CLIENT_WORDS, out, sizeof out, sent, SIGMA_SENT_WORDS) == 10, "it is out already");
    expect(sent_are(sent, 255, SIGMA_CLIENT_OUT), "refused, the counts are the last accepted call's");
}

/* Client 5 and the only server. */
static void enter_and_leave(void)
{
    uint32_t client[SIGMA_CLIENT_WORDS], server[SIGMA_SERVER_WORDS], sent[SIGMA_SENT_WORDS], words[SIGMA_READ_WORDS];
    uint8_t out[SIGMA_SERVER_OUT];
    expect(sigma_client_new(1, 1, 5, client, SIGMA_CLIENT_WORDS - 1) == 7, "515 words lent");
    expect(sigma_client_new(1, 1, 5, client, SIGMA_CLIENT_WORDS) == 0, "a new client");
    expect(sigma_server_new(1, 2, server, SIGMA_SERVER_WORDS) == 7, "server 2 of 1");
    expect(sigma_server_new(1, 1, server, SIGMA_SERVER_WORDS) == 0, "a new server");
    expect(sigma_server_suspect(server, SIGMA_SERVER_WORDS, out, sizeof out, sent, SIGMA_SENT_WORDS) == 15, "no owner");

    expect(sigma_client_begin(client, SIGMA_CLIENT_WORDS, out, 11, sent, SIGMA_SENT_WORDS) == 6, "room short");
    expect(sigma_client_begin(client, SIGMA_CLIENT_WORDS, out, 12, sent, SIGMA_SENT_WORDS) == 0, "begin");
    expect(sent_are(sent, 1, 12) && client_is(client, SIGMA_TRYING, 1), "one REQUEST");
    expect(first_is(SIGMA_REQUEST, out, sent, words), "it can be read");
    expect(sigma_server_message(server, SIGMA_SERVER_WORDS, words, SIGMA_MESSAGE_WORDS, out, sizeof out, sent,
                                SIGMA_SENT_WORDS) == 0, "the server takes it");
    expect(server[2] == 5 && server[3] == 1 && server[4] == 0, "client 5 is owner");
    expect(first_is(SIGMA_RESPONSE, out, sent, words), "its answer");
    expect(sigma_client_message(client, SIGMA_CLIENT_WORDS, words, SIGMA_MESSAGE_WORDS, out, 0, sent,
                                SIGMA_SENT_WORDS) == 0, "the client takes it");
    expect(sent_are(sent, 0, 0) && client_is(client, SIGMA_CRITICAL, 1), "client 5 is in");

    expect(sigma_client_exit(client, SIGMA_CLIENT_WORDS, out, sizeof out, sent, SIGMA_SENT_WORDS) == 0, "exit");
    expect(client_is(client, SIGMA_REMAINDER, 2), "client 5 is out");
    expect(sigma_server_check(server, SIGMA_SERVER_WORDS, out, sizeof out, sent, SIGMA_SENT_WORDS) == 0, "check");
    expect(first_is(SIGMA_CHECK, out, sent, words), "a CHECK");
    expect(sigma_client_message(client, SIGMA_CLIENT_WORDS, words, SIGMA_MESSAGE_WORDS, out, sizeof out, sent,
                                SIGMA_SENT_WORDS) == 0, "the client takes the CHECK");
    expect(first_is(SIGMA_RELEASE, out, sent, words), "a RELEASE");
    expect(sigma_server_message(server, SIGMA_SERVER_WORDS, words, SIGMA_MESSAGE_WORDS, out, sizeof out, sent,
                                SIGMA_SENT_WORDS) == 0, "the server takes the RELEASE");
    expect(server[2] == 0 && server[3] == 0, "no owner");
    server[4] = 1;
    expect(sigma_server_check(server, SIGMA_SERVER_WORDS, out, sizeof out, sent, SIGMA_SENT_WORDS) == 21, "broken");
}

/* Five words, then two for each of 32 places of a queue; six words, then two for the response of each of 255 servers. */
static_assert(SIGMA_QUEUE_PLACES == 32 && SIGMA_SERVER_WORDS == 69 && SIGMA_CLIENT_WORDS == 516, "the records' words");
static_assert(SIGMA_CLIENT_RESPONSES + 2 * SIGMA_SERVER_ID_MAX == SIGMA_CLIENT_WORDS, "the responses are the last");
static_assert(SIGMA_MESSAGE_WORDS == 5 && SIGMA_READ_BYTES == SIGMA_MESSAGE_WORDS && SIGMA_READ_WORDS == 6, "a message's words");
static_assert(SIGMA_SIMULATION_WORDS == 7440 && SIGMA_SCRIPT_WORDS == 7486, "a simulation's, and with it a script's");

/* The struct is the record's words and the two counts, in this order and with nothing between them. */
static_assert(sizeof(struct sigma_host) == 71 * sizeof(uint32_t), "71 words");
static_assert(sizeof(struct sigma_host) == (SIGMA_SERVER_WORDS + SIGMA_SENT_WORDS) * sizeof(uint32_t), "no padding");
static_assert(offsetof(struct sigma_host, id) == 1 * sizeof(uint32_t), "id");
static_assert(offsetof(struct sigma_host, owner) == 2 * sizeof(uint32_t), "owner");
static_assert(offsetof(struct sigma_host, owner_timestamp) == 3 * sizeof(uint32_t), "owner_timestamp");
static_assert(offsetof(struct sigma_host, queue_length) == 4 * sizeof(uint32_t), "queue_length");
static_assert(offsetof(struct sigma_host, queue) == 5 * sizeof(uint32_t), "queue");
static_assert(offsetof(struct sigma_request, timestamp) == sizeof(uint32_t), "client, then timestamp");
static_assert(offsetof(struct sigma_host, sent) == SIGMA_SERVER_WORDS * sizeof(uint32_t), "sent");
static_assert(offsetof(struct sigma_host, bytes) == (SIGMA_SERVER_WORDS + 1) * sizeof(uint32_t), "bytes");

/* One server twice: in a struct, and as a record's words with the same calls. */
static struct sigma_host host;
static uint32_t record[SIGMA_SERVER_WORDS], counts[SIGMA_SENT_WORDS];
static uint8_t host_out[SIGMA_SERVER_OUT], record_out[SIGMA_SERVER_OUT];

static void same(const char *what)
{
    expect(memcmp(&host, record, sizeof record) == 0, what);
    expect(host.sent == counts[SIGMA_SENT_MESSAGES] && host.bytes == counts[SIGMA_SENT_BYTES], what);
    expect(memcmp(host_out, record_out, sizeof host_out) == 0, what);
}

static uint32_t both_take(uint32_t kind, uint32_t client, uint32_t timestamp, size_t room)
{
    uint32_t message[SIGMA_MESSAGE_WORDS] = {kind, client, 1, timestamp, 0};
    uint32_t refusal = sigma_host_message(&host, message, SIGMA_MESSAGE_WORDS, host_out, room);
    expect(sigma_server_message(record, SIGMA_SERVER_WORDS, message, SIGMA_MESSAGE_WORDS, record_out, room, counts,
                                SIGMA_SENT_WORDS) == refusal, "the same answer");
    same("after a message");
    return refusal;
}

static void in_a_struct(void)
{
    struct sigma_host before;
    host.n = 3;
    host.id = 1;
    expect(sigma_server_new(3, 1, record, SIGMA_SERVER_WORDS) == 0, "a new server");
    same("a new server is 0 but for n and its number");
    expect(sigma_host_suspect(&host, host_out, sizeof host_out) == 15, "no owner");
    expect(both_take(SIGMA_REQUEST, 5, 3, 13) == 6, "room short");
    expect(both_take(SIGMA_CHECK, 5, 3, sizeof host_out) == 13, "no message for a server");
    expect(both_take(SIGMA_REQUEST, 5, 3, sizeof host_out) == 0, "client 5");
    expect(host.owner == 5 && host.owner_timestamp == 3 && host.sent == 1 && host.bytes == 14, "client 5 is owner");
    expect(both_take(SIGMA_REQUEST, 7, 4, sizeof host_out) == 0, "client 7");
    expect(host.queue_length == 1 && host.queue[0].client == 7 && host.queue[0].timestamp == 4, "client 7 waits");
    before = host;
    expect(sigma_host_check(&host, host_out, 11) == 6 && memcmp(&host, &before, sizeof host) == 0, "a refused call");
    expect(sigma_host_check(&host, host_out, sizeof host_out) == 0 && host.sent == 1 && host.bytes == 12, "a CHECK");
    expect(sigma_server_check(record, SIGMA_SERVER_WORDS, record_out, sizeof record_out, counts, SIGMA_SENT_WORDS) == 0, "check");
    same("after a check");
    expect(sigma_host_suspect(&host, host_out, sizeof host_out) == 0 && host.owner == 7 && host.queue_length == 0, "client 7 is owner");
    expect(sigma_server_suspect(record, SIGMA_SERVER_WORDS, record_out, sizeof record_out, counts, SIGMA_SENT_WORDS) == 0, "suspect");
    same("after a suspicion");
    host.queue_length = SIGMA_QUEUE_PLACES + 1;
    expect(sigma_host_check(&host, host_out, sizeof host_out) == 21 && host.queue_length == SIGMA_QUEUE_PLACES + 1, "a broken struct");
}

/* The two steps that send two RESPONSEs, the most: an owner yields to another, or asks with a later timestamp while another waits. */
static void most_of_a_server(void)
{
    struct sigma_host before;
    memset(&host, 0, sizeof host);
    memset(counts, 0, sizeof counts);
    host.n = 3;
    host.id = 1;
    expect(sigma_server_new(3, 1, record, SIGMA_SERVER_WORDS) == 0, "a new server");
    expect(both_take(SIGMA_REQUEST, 5, 3, sizeof host_out) == 0 && both_take(SIGMA_REQUEST, 2, 3, sizeof host_out) == 0, "client 2 waits");
    before = host;
    expect(both_take(SIGMA_YIELD, 5, 3, sizeof host_out - 1) == 6 && memcmp(&host, &before, sizeof host) == 0, "a byte too few");
    expect(host.sent == 1 && host.bytes == 14, "the counts are the last accepted call's");
    expect(both_take(SIGMA_YIELD, 5, 3, sizeof host_out) == 0 && host.owner == 2, "client 5 yields");
    expect(host.sent == 2 && host.bytes == SIGMA_SERVER_OUT, "all bytes are used");
    before = host;
    expect(both_take(SIGMA_REQUEST, 2, 4, sizeof host_out - 1) == 6 && memcmp(&host, &before, sizeof host) == 0, "a byte too few");
    expect(both_take(SIGMA_RESPONSE, 2, 4, sizeof host_out) == 5 && both_take(SIGMA_CHECK, 2, 4, sizeof host_out) == 13, "no such message");
    expect(host.sent == 2 && host.bytes == SIGMA_SERVER_OUT, "the counts are the last accepted call's");
    expect(both_take(SIGMA_REQUEST, 2, 4, sizeof host_out) == 0 && host.owner == 5 && host.queue[0].client == 2, "client 2 asks anew");
    expect(host.sent == 2 && host.bytes == SIGMA_SERVER_OUT, "all bytes are used");
}

/* Client 100 owns; clients 1 to 32 take the queue's 32 places, the last come first. A 33rd is refused, and a yield goes through 33. */
static void a_full_queue(void)
{
    uint32_t i;
    memset(&host, 0, sizeof host);
    memset(counts, 0, sizeof counts);
    host.n = 255;
    host.id = 1;
    expect(sigma_server_new(255, 1, record, SIGMA_SERVER_WORDS) == 0, "server 1 of 255");
    expect(both_take(SIGMA_REQUEST, 100, 50, sizeof host_out) == 0 && host.owner == 100, "client 100 is owner");
    for (i = 1; i <= SIGMA_QUEUE_PLACES; i++)
        expect(both_take(SIGMA_REQUEST, i, 40 - i, sizeof host_out) == 0 && host.queue_length == i, "one more waits");
    expect(host.queue[0].client == 32 && host.queue[0].timestamp == 8, "the lowest timestamp first");
    expect(host.queue[31].client == 1 && host.queue[31].timestamp == 39, "the highest last");
    expect(both_take(SIGMA_REQUEST, 33, 7, sizeof host_out) == 14 && host.queue_length == 32, "no place for a 33rd");
    expect(both_take(SIGMA_INQUIRY, 33, 7, sizeof host_out) == 0 && host.sent == 1, "which may ask");
    expect(both_take(SIGMA_YIELD, 100, 50, sizeof host_out) == 0 && host.sent == 2 && host.bytes == SIGMA_SERVER_OUT,
           "the owner gives way");
    expect(host.owner == 32 && host.owner_timestamp == 8 && host.queue_length == 32, "the first of 33 is owner, 32 wait");
    expect(host.queue[0].client == 31 && host.queue[31].client == 100 && host.queue[31].timestamp == 50, "the old owner last");
    expect(both_take(SIGMA_RELEASE, 31, 9, sizeof host_out) == 0 && host.queue_length == 31, "one goes");
    expect(both_take(SIGMA_REQUEST, 33, 7, sizeof host_out) == 0 && host.queue[0].client == 33, "and another comes");
}

/* Document 02's worked case of a client's timestamps: last 3, seen 40, begin takes 41, exit 42. */
static void clock_of_a_client(void)
{
    uint32_t client[SIGMA_CLIENT_WORDS], sent[SIGMA_SENT_WORDS], words[SIGMA_READ_WORDS];
    uint32_t check[SIGMA_MESSAGE_WORDS] = {SIGMA_CHECK, 5, 1, 40, 0}, response[SIGMA_MESSAGE_WORDS] = {SIGMA_RESPONSE, 5, 1, 41, 5};
    uint8_t out[12];
    expect(sigma_client_new(1, 1, 5, client, SIGMA_CLIENT_WORDS) == 0 && client[SIGMA_CLIENT_SEEN] == 0, "a new client has seen nothing");
    client[SIGMA_CLIENT_TIMESTAMP] = 3;
    expect(sigma_client_message(client, SIGMA_CLIENT_WORDS, check, SIGMA_MESSAGE_WORDS, out, 11, sent, SIGMA_SENT_WORDS) == 6 &&
           client[SIGMA_CLIENT_SEEN] == 0, "refused, and not seen");
    expect(sigma_client_message(client, SIGMA_CLIENT_WORDS, check, SIGMA_MESSAGE_WORDS, out, 12, sent, SIGMA_SENT_WORDS) == 0 &&
           client[SIGMA_CLIENT_TIMESTAMP] == 3 && client[SIGMA_CLIENT_SEEN] == 40, "a CHECK is seen");
    expect(sigma_client_begin(client, SIGMA_CLIENT_WORDS, out, 12, sent, SIGMA_SENT_WORDS) == 0 && client_is(client, SIGMA_TRYING, 41),
           "begin takes 41");
    expect(first_is(SIGMA_REQUEST, out, sent, words) && words[SIGMA_MESSAGE_TIMESTAMP] == 41, "and asks with it");
    expect(sigma_client_message(client, SIGMA_CLIENT_WORDS, response, SIGMA_MESSAGE_WORDS, out, 0, sent, SIGMA_SENT_WORDS) == 0 &&
           client_is(client, SIGMA_CRITICAL, 41) && client[SIGMA_CLIENT_SEEN] == 41, "its own timestamp is seen too");
    client[SIGMA_CLIENT_SEEN] = 50;
    expect(sigma_client_exit(client, SIGMA_CLIENT_WORDS, out, 12, sent, SIGMA_SENT_WORDS) == 0 && client_is(client, SIGMA_REMAINDER, 42),
           "exit takes 42");
    expect(sigma_client_begin(client, SIGMA_CLIENT_WORDS, out, 12, sent, SIGMA_SENT_WORDS) == 0 && client_is(client, SIGMA_TRYING, 51),
           "begin takes 51");
    client[SIGMA_CLIENT_SECTION] = SIGMA_REMAINDER;
    client[SIGMA_CLIENT_SEEN] = SIGMA_TIMESTAMP_MAX - 1;
    expect(sigma_client_begin(client, SIGMA_CLIENT_WORDS, out, 0, sent, SIGMA_SENT_WORDS) == 11, "none left above what was seen");
    client[SIGMA_CLIENT_SEEN] = SIGMA_TIMESTAMP_MAX - 2;
    expect(sigma_client_begin(client, SIGMA_CLIENT_WORDS, out, 12, sent, SIGMA_SENT_WORDS) == 0 &&
           client_is(client, SIGMA_TRYING, SIGMA_TIMESTAMP_MAX - 1), "one left");
}

/* Records saved before there were so many places: a server's with 16, a client's with 31; and a client's before it noted what it saw. */
enum { SAVED_SERVER_WORDS = 37, SAVED_CLIENT_WORDS = 67, UNSEEING_CLIENT_WORDS = 515 };

static void saved_server(void)
{
    uint32_t saved[SAVED_SERVER_WORDS] = {31, 2, 5, 3, 16}, before[SAVED_SERVER_WORDS], taken[SIGMA_SERVER_WORDS + 1], i;
    uint32_t again[SIGMA_SERVER_WORDS];
    for (i = 0; i < 16; i++) {
        saved[5 + 2 * i] = 10 + i;
        saved[6 + 2 * i] = 4;
    }
    memcpy(before, saved, sizeof saved);
    memset(taken, 0x77, sizeof taken);
    expect(sigma_server_check(saved, SAVED_SERVER_WORDS, host_out, sizeof host_out, counts, SIGMA_SENT_WORDS) == 21, "no step takes it");
    expect(sigma_server_upgrade(saved, SAVED_SERVER_WORDS - 1, taken, SIGMA_SERVER_WORDS) == 21, "36 words");
    expect(sigma_server_upgrade(saved, SAVED_SERVER_WORDS, taken, SIGMA_SERVER_WORDS - 1) == 6, "68 words lent");
    saved[0] = 32;
    expect(sigma_server_upgrade(saved, SAVED_SERVER_WORDS, taken, 0) == 21, "n 32, which 37 words could not say");
    saved[0] = 31;
    expect(all(taken, SIGMA_SERVER_WORDS + 1, 0x77777777), "refused, all is as it was");
    expect(sigma_server_upgrade(saved, SAVED_SERVER_WORDS, taken, SIGMA_SERVER_WORDS + 1) == 0, "taken over");
    expect(memcmp(taken, saved, sizeof saved) == 0 && all(taken + SAVED_SERVER_WORDS, 32, 0), "the queue in front, all else empty");
    expect(taken[SIGMA_SERVER_WORDS] == 0x77777777 && memcmp(saved, before, sizeof saved) == 0, "nothing else is written");
    expect(sigma_server_upgrade(taken, SIGMA_SERVER_WORDS, again, SIGMA_SERVER_WORDS) == 0, "the present form");
    expect(memcmp(again, taken, sizeof again) == 0, "is copied");
    {
        uint32_t request[SIGMA_MESSAGE_WORDS] = {SIGMA_REQUEST, 9, 2, 4, 0};
        expect(sigma_server_message(taken, SIGMA_SERVER_WORDS, request, SIGMA_MESSAGE_WORDS, host_out, sizeof host_out, counts,
                                    SIGMA_SENT_WORDS) == 0 && taken[4] == 17 && taken[5] == 9, "a 17th waits, and is the first");
    }
}

static void saved_client(void)
{
    /* Client 5 with 31 servers and threshold 2: server 31 has answered for it. */
    uint32_t saved[SAVED_CLIENT_WORDS] = {31, 2, 5, SIGMA_TRYING, 3}, before[SAVED_CLIENT_WORDS], taken[SIGMA_CLIENT_WORDS + 1];
    uint32_t again[SIGMA_CLIENT_WORDS], unseeing[UNSEEING_CLIENT_WORDS] = {0};
    saved[65] = 5;
    saved[66] = 3;
    memcpy(before, saved, sizeof saved);
    memset(taken, 0x77, sizeof taken);
    expect(sigma_client_exit(saved, SAVED_CLIENT_WORDS, host_out, sizeof host_out, counts, SIGMA_SENT_WORDS) == 21, "no step takes it");
    expect(sigma_client_upgrade(saved, SAVED_SERVER_WORDS, taken, SIGMA_CLIENT_WORDS) == 21, "37 words");
    expect(sigma_client_upgrade(saved, SAVED_CLIENT_WORDS, taken, SIGMA_CLIENT_WORDS - 1) == 6, "515 words lent");
    saved[0] = 32;
    expect(sigma_client_upgrade(saved, SAVED_CLIENT_WORDS, taken, 0) == 21, "n 32, which 67 words could not say");
    saved[0] = 31;
    expect(all(taken, SIGMA_CLIENT_WORDS + 1, 0x77777777), "refused, all is as it was");
    expect(sigma_client_upgrade(saved, SAVED_CLIENT_WORDS, taken, SIGMA_CLIENT_WORDS + 1) == 0, "taken over");
    expect(memcmp(taken, saved, 5 * sizeof *saved) == 0 && taken[SIGMA_CLIENT_SEEN] == 0, "the same client, which has seen nothing");
    expect(memcmp(taken + SIGMA_CLIENT_RESPONSES, saved + 5, 62 * sizeof *saved) == 0 && all(taken + 68, 448, 0),
           "the responses in front, all else empty");
    expect(taken[SIGMA_CLIENT_WORDS] == 0x77777777 && memcmp(saved, before, sizeof saved) == 0, "nothing else is written");
    memcpy(unseeing, saved, sizeof saved);
    expect(sigma_client_upgrade(unseeing, UNSEEING_CLIENT_WORDS, again, SIGMA_CLIENT_WORDS) == 0, "the form between");
    expect(memcmp(again, taken, sizeof again) == 0, "becomes the same");
    taken[SIGMA_CLIENT_SEEN] = 40;
    expect(sigma_client_upgrade(taken, SIGMA_CLIENT_WORDS, again, SIGMA_CLIENT_WORDS) == 0, "the present form");
    expect(memcmp(again, taken, sizeof again) == 0, "is copied, with what was seen");
    {
        uint32_t response[SIGMA_MESSAGE_WORDS] = {SIGMA_RESPONSE, 5, 1, 3, 5};
        expect(sigma_client_message(taken, SIGMA_CLIENT_WORDS, response, SIGMA_MESSAGE_WORDS, host_out, 0, counts,
                                    SIGMA_SENT_WORDS) == 0 && client_is(taken, SIGMA_CRITICAL, 3), "the second response brings it in");
    }
}

/* Client 5 needs all of 255 servers. The last one's owner is client 2, whose request comes before client 5's, which so yields the 254 others. */
enum { ROUND = SIGMA_SERVER_ID_MAX };

static uint32_t delivered = 0;

/* The round's next message: YIELD to servers 1 to 254, then INQUIRY to server 255. */
static void deliver(const uint32_t *words, const uint8_t *part)
{
    uint32_t alone[SIGMA_READ_WORDS], kind = ++delivered < ROUND ? SIGMA_YIELD : SIGMA_INQUIRY;
    expect(words[SIGMA_MESSAGE_KIND] == kind && words[SIGMA_MESSAGE_CLIENT] == 5 && words[SIGMA_MESSAGE_SERVER] == delivered &&
           words[SIGMA_MESSAGE_TIMESTAMP] == 1 && words[SIGMA_MESSAGE_OWNER] == 0, "to the next server");
    expect(sigma_read(part, words[SIGMA_READ_BYTES], alone, SIGMA_READ_WORDS) == 0 && memcmp(alone, words, sizeof alone) == 0, "its part");
}

/* The round's bytes as the step that yields wrote them. */
static void yield_round(uint8_t *out, size_t room, uint32_t *sent)
{
    uint32_t client[SIGMA_CLIENT_WORDS], j;
    expect(sigma_client_new(ROUND, ROUND, 5, client, SIGMA_CLIENT_WORDS) == 0, "a new client");
    expect(sigma_client_begin(client, SIGMA_CLIENT_WORDS, out, room, sent, SIGMA_SENT_WORDS) == 0, "it tries");
    for (j = 1; j <= ROUND; j++) {
        uint32_t response[SIGMA_MESSAGE_WORDS] = {SIGMA_RESPONSE, 5, j, 1, j < ROUND ? 5u : 2u};
        expect(sigma_client_message(client, SIGMA_CLIENT_WORDS, response, SIGMA_MESSAGE_WORDS, out, room, sent,
                                    SIGMA_SENT_WORDS) == 0, "a server's response");
    }
    expect(client_is(client, SIGMA_TRYING, 1) && sent_are(sent, ROUND, SIGMA_CLIENT_OUT), "a message to every server");
}

static void packets(void)
{
    uint32_t sent[SIGMA_SENT_WORDS], words[SIGMA_READ_WORDS] = {7, 7, 7, 7, 7, 7}, refusal;
    uint8_t out[SIGMA_CLIENT_OUT], packet[SIGMA_PACKET_FIRST + sizeof out];
    size_t at;
    yield_round(out, sizeof out, sent);
    refusal = sigma_packet_pack(out, sent[SIGMA_SENT_BYTES], packet, sizeof packet);
    for (at = SIGMA_PACKET_FIRST; refusal == 0; at += words[SIGMA_READ_BYTES]) {
        refusal = sigma_packet_next(packet, sizeof packet, at, words, SIGMA_READ_WORDS);
        if (refusal != 0 || words[SIGMA_READ_BYTES] == 0) break;
        deliver(words, packet + at);
    }
    expect(refusal == 0 && delivered == ROUND && at == sizeof packet, "all of the packet was read");
    expect(words[0] == 0 && words[1] == 0 && words[2] == 0 && words[3] == 0 && words[4] == 0, "six times 0 at its end");
    expect(packet[0] == sizeof packet % 256 && packet[1] == sizeof packet / 256, "the total");
    expect(memcmp(packet + SIGMA_PACKET_FIRST, out, sizeof out) == 0, "the bytes that the step wrote");

    words[0] = 7;
    expect(sigma_packet_next(packet, sizeof packet - 1, 2, words, SIGMA_READ_WORDS) == 22, "the total is above the bytes lent");
    expect(sigma_packet_next(packet, sizeof packet, 3, words, SIGMA_READ_WORDS) == 22, "no message starts there");
    expect(sigma_packet_next(packet, sizeof packet, 2, words, SIGMA_READ_WORDS - 1) == 6, "five words lent");
    packet[SIGMA_PACKET_FIRST + 6] = 0;
    expect(sigma_packet_next(packet, sizeof packet, 14, words, SIGMA_READ_WORDS) == 5, "server 0, in another message");
    expect(words[0] == 7, "refused, all is as it was");
    expect(sigma_packet_pack(out, sizeof out - 1, packet, sizeof packet) == 22, "the last message is cut");
    expect(sigma_packet_pack(packet + SIGMA_PACKET_FIRST, sizeof out, out, 0) == 5, "server 0, before the room");
    expect(sigma_packet_pack(out, sizeof out, packet, sizeof packet - 1) == 6, "room short");
    expect(sigma_packet_pack(out, 0, packet, sizeof packet) == 0 && packet[0] == 2 && packet[1] == 0, "the empty packet");
    expect(sigma_packet_next(packet, sizeof packet, 2, words, SIGMA_READ_WORDS) == 0 && words[0] == 0, "which ends at once");
}

/* Document 01's setting 3,2,1: unsafe, margin 0, a run of 12 events that begins with client 1's try. */
static void settings(void)
{
    uint32_t words[2] = {7, 7};
    expect(sigma_setting(256, 2, 1, words, SIGMA_SETTING_WORDS) == 7 && words[0] == 7, "out of range");
    expect(sigma_setting(3, 2, 1, words, 1) == 6 && words[0] == 7, "one word lent");
    expect(sigma_setting(3, 2, 1, words, SIGMA_SETTING_WORDS) == 8 && words[0] == 0 && words[1] == 12, "unsafe");
    expect(sigma_setting(3, 1, 3, words, SIGMA_SETTING_WORDS) == 8 && (int32_t)words[0] == -4, "a margin below 0");
    expect(sigma_setting(4, 4, 1, words, SIGMA_SETTING_WORDS) == 9 && words[0] == 3 && words[1] == 0, "stalls");
    expect(sigma_setting(4, 3, 1, words, SIGMA_SETTING_WORDS) == 0 && words[0] == 1 && words[1] == 0, "accepted");
    expect(sigma_run_event(3, 2, 1, 1, words, SIGMA_EVENT_WORDS) == 0 && words[0] == SIGMA_EVENT_TRY && words[1] == 1, "try 1");
    expect(sigma_run_event(3, 2, 1, 13, words, SIGMA_EVENT_WORDS) == 17, "behind the run");
    expect(sigma_default_threshold(7, words, 1) == 0 && words[0] == 5, "two thirds of 7");
    expect(sigma_default_threshold(255, words, 1) == 0 && words[0] == 170, "two thirds of 255");
    expect(sigma_default_threshold(256, words, 1) == 7 && words[0] == 170, "out of range");
    expect(sigma_setting(255, 255, 255, words, SIGMA_SETTING_WORDS) == 8 && words[0] == 0 && words[1] == 1532, "the longest run");
    expect(sigma_run_event(255, 255, 255, 1532, words, SIGMA_EVENT_WORDS) == 0 && words[0] == SIGMA_EVENT_TAKE && words[1] == 1020, "its end");
    expect(sigma_run_event(255, 255, 255, 1533, words, SIGMA_EVENT_WORDS) == 17, "behind it");
}

/* Document 01's example, in two parts and with room for one line at a time. */
static void script(void)
{
    static const char input[] = "setting 2 1 0 2\ntry 1\ntake 1\ntake 3\ntry 2\ntake 5\ntake 6\n";
    static const char expected[] = "gallery 2 1 0 2\n1 ok 2 0\n2 ok 1 0\n3 ok 0 1\n4 ok 2 1\n5 ok 1 1\n6 ok 0 2\nend 6 2 0\n";
    static uint32_t state[SIGMA_SCRIPT_WORDS];
    const uint8_t *bytes = (const uint8_t *)input;
    uint8_t out[SIGMA_SCRIPT_END], joined[200];
    size_t counts[SIGMA_SCRIPT_COUNTS], at = 0, used = 0, length = strlen(input), half = 20;
    expect(sigma_script_new(state, SIGMA_SCRIPT_WORDS - 1) == 7, "too few words");
    expect(sigma_script_new(state, SIGMA_SCRIPT_WORDS) == 0, "a new script");
    expect(sigma_script_feed(state, SIGMA_SCRIPT_WORDS, bytes, length, out, SIGMA_SCRIPT_LINE - 1, counts, 2) == 6, "no room");
    expect(sigma_script_feed(state, SIGMA_SCRIPT_WORDS, bytes, length, out, SIGMA_SCRIPT_LINE, counts, 1) == 6, "one word lent");
    while (used < length) {
        size_t given = used < half ? half - used : length - used;
        uint32_t refusal = sigma_script_feed(state, SIGMA_SCRIPT_WORDS, bytes + used, given, out, SIGMA_SCRIPT_LINE, counts, 2);
        expect(refusal == 0 && counts[0] > 0 && counts[0] <= given, "bytes are used");
        if (refusal != 0 || counts[0] == 0)
            return;
        memcpy(joined + at, out, counts[1]);
        at += counts[1];
        used += counts[0];
    }
    expect(sigma_script_finish(state, SIGMA_SCRIPT_WORDS, out, SIGMA_SCRIPT_END - 1, counts, 2) == 6, "no room for the end");
    expect(sigma_script_finish(state, SIGMA_SCRIPT_WORDS, out, SIGMA_SCRIPT_END, counts, 2) == 0 && counts[0] == 0, "the end");
    memcpy(joined + at, out, counts[1]);
    expect(at + counts[1] == strlen(expected) && memcmp(joined, expected, strlen(expected)) == 0, "the example's output");
    state[0] = 3;
    expect(sigma_script_finish(state, SIGMA_SCRIPT_WORDS, out, SIGMA_SCRIPT_END, counts, 2) == 21, "a broken state");
}

/* The unsafe run of 3, 2, 1, event by event, ends with two clients inside. */
static void simulation(void)
{
    static uint32_t words[SIGMA_SIMULATION_WORDS], before[SIGMA_SIMULATION_WORDS];
    uint32_t answer[SIGMA_ANSWER_WORDS] = {7, 7}, setting[SIGMA_SETTING_WORDS], event[SIGMA_EVENT_WORDS], i;
    expect(sigma_simulation_new(3, 2, 1, 2, words, SIGMA_SIMULATION_WORDS - 1) == 7, "too few words");
    expect(sigma_simulation_new(3, 2, 1, 17, words, SIGMA_SIMULATION_WORDS) == 7, "17 clients");
    expect(sigma_simulation_new(32, 2, 1, 2, words, SIGMA_SIMULATION_WORDS) == 7, "32 servers");
    expect(sigma_simulation_new(3, 2, 1, 2, words, SIGMA_SIMULATION_WORDS) == 0, "a fresh start");
    memcpy(before, words, sizeof words);
    expect(sigma_simulation_event(words, SIGMA_SIMULATION_WORDS, SIGMA_EVENT_CHECK + 1, 1, answer, 2) == 16, "no such kind");
    expect(sigma_simulation_event(words, SIGMA_SIMULATION_WORDS, SIGMA_EVENT_EXIT, 1, answer, 1) == 10, "10 before 6");
    expect(sigma_simulation_event(words, SIGMA_SIMULATION_WORDS, SIGMA_EVENT_TRY, 1, answer, 1) == 6, "one word lent");
    expect(memcmp(before, words, sizeof words) == 0 && answer[0] == 7 && answer[1] == 7, "refused, all is as it was");
    expect(sigma_setting(3, 2, 1, setting, SIGMA_SETTING_WORDS) == 8, "an unsafe setting");
    for (i = 1; i <= setting[1]; i++) {
        expect(sigma_run_event(3, 2, 1, i, event, SIGMA_EVENT_WORDS) == 0, "an event of its run");
        expect(sigma_simulation_event(words, SIGMA_SIMULATION_WORDS, event[0], event[1], answer, 2) == 0, "it happens");
    }
    expect(answer[0] == 0 && answer[1] == 2, "two clients inside");
    words[0] = 0;
    expect(sigma_simulation_event(words, SIGMA_SIMULATION_WORDS, SIGMA_EVENT_TRY, 70000, answer, 2) == 21, "21 before 17");
}

int main(void)
{
    static const uint8_t request[] = {0x0C, 0, 1, 0, 5, 0, 1, 0, 3, 0, 0, 0};
    static const uint8_t response[] = {0x0E, 0, 5, 0, 5, 0, 1, 0, 3, 0, 0, 0, 2, 0};
    static const uint32_t request_words[] = {SIGMA_REQUEST, 5, 1, 3, 0};
    static const uint32_t response_words[] = {SIGMA_RESPONSE, 5, 1, 3, 2};
    static const uint8_t to_the_last[] = {0x0C, 0, 1, 0, 5, 0, 255, 0, 3, 0, 0, 0}, too_far[] = {0x0C, 0, 1, 0, 5, 0, 1, 1, 3, 0, 0, 0};
    static const uint32_t last_words[] = {SIGMA_REQUEST, 5, 255, 3, 0};
    uint32_t words[SIGMA_READ_WORDS];
    round_trip(request, sizeof request, request_words);
    round_trip(response, sizeof response, response_words);
    round_trip(to_the_last, sizeof to_the_last, last_words);
    expect(sigma_read(too_far, sizeof too_far, words, SIGMA_READ_WORDS) == 5, "server 257");
    messages();
    largest_numbers();
    most_of_a_client();
    enter_and_leave();
    in_a_struct();
    most_of_a_server();
    a_full_queue();
    clock_of_a_client();
    saved_server();
    saved_client();
    packets();
    settings();
    simulation();
    script();
    puts(failures == 0 ? "header ok" : "header wrong");
    return failures != 0;
}
