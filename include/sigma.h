/* The Sigma lock's library, for C.
 *
 * Every call returns 0, or the number of the refusal (docs/REFUSALS.md says what each means); a refused call changes
 * nothing it was lent, but for 8 and 9 of sigma_setting. A slice is a pointer, then its length in elements: the pointer is aligned and not null
 * even where the length is 0, and a slice that a call may write overlaps no other.
 *
 * `tools/library` makes target/libsigma.a, which has every call. The library keeps nothing between calls, allocates nothing and calls
 * nothing but memory functions of libc. docs/HOSTS.md says what a host does around the calls: without it, two clients can be inside
 * though every call returns 0.
 */
#ifndef SIGMA_H
#define SIGMA_H

#include <stddef.h>
#include <stdint.h>

#ifdef __cplusplus
extern "C" {
#endif

/* A message is five words: kind, client, server, timestamp, owner (0 where the kind has none). A client sends the first four kinds to
 * a server, a server the last two to a client. */
enum {
    SIGMA_REQUEST = 1,
    SIGMA_YIELD = 2,
    SIGMA_RELEASE = 3,
    SIGMA_INQUIRY = 4,
    SIGMA_RESPONSE = 5,
    SIGMA_CHECK = 6
};

/* The words' places. */
enum {
    SIGMA_MESSAGE_KIND = 0,
    SIGMA_MESSAGE_CLIENT = 1,
    SIGMA_MESSAGE_SERVER = 2,
    SIGMA_MESSAGE_TIMESTAMP = 3,
    SIGMA_MESSAGE_OWNER = 4,
    SIGMA_MESSAGE_WORDS = 5,
    SIGMA_READ_BYTES = 5,      /* the sixth word that sigma_read writes: the bytes it took */
    SIGMA_READ_WORDS = 6
};

/* Numbers: a client is 1 to 65535, a server 1 to 255, a timestamp 1 to 4294967295. */
enum {
    SIGMA_CLIENT_ID_MAX = 65535,
    SIGMA_SERVER_ID_MAX = 255
};
#define SIGMA_TIMESTAMP_MAX UINT32_MAX

/* Bytes. */
enum {
    SIGMA_MESSAGE_MAX = 14,    /* the longest message, a RESPONSE; the others have 12 */
    SIGMA_SERVER_OUT = 28,     /* the most that a server sends in a step */
    SIGMA_CLIENT_OUT = 3060    /* the most that a client sends in a step: 12 for each of n servers, here of 255 */
};

/* Reads the message that `bytes` begins with, into the first six words: its five, and the bytes it took.
 * Refusals: 1 under 4 bytes, 2 unknown kind, 3 length not the kind's, 4 bytes fewer than the length,
 * 5 a number out of range, 6 fewer than six words lent. */
uint32_t sigma_read(const uint8_t *bytes, size_t bytes_len, uint32_t *words, size_t words_len);

/* Writes the message of five words at the start of `out`; the bytes behind it stay.
 * Refusals: 5 not five words, or a number out of range, 6 room short. */
uint32_t sigma_write(const uint32_t *words, size_t words_len, uint8_t *out, size_t out_len);

/* A packet is two bytes, little-endian, with the packet's whole length, these two counted (its total), then messages one after
 * another: all that a step sends, in one piece. Places are counted in the packet: the first message starts at 2, and the packet ends
 * at its total. What a step wrote is packed, and a packet read to its end, by
 *
 *     refusal = sigma_packet_pack(out, sent[SIGMA_SENT_BYTES], packet, sizeof packet);
 *     for (at = SIGMA_PACKET_FIRST; refusal == 0; at += words[SIGMA_READ_BYTES]) {
 *         refusal = sigma_packet_next(packet, sizeof packet, at, words, SIGMA_READ_WORDS);
 *         if (refusal != 0 || words[SIGMA_READ_BYTES] == 0) break;
 *         deliver(words, packet + at);
 *     }
 *
 * where `deliver` takes a message's words and the part of the packet that it came from, words[SIGMA_READ_BYTES] bytes long. */
enum {
    SIGMA_PACKET_FIRST = 2,    /* the place of the first message */
    SIGMA_PACKET_MAX = 65535   /* the largest total */
};

/* Reads the message that starts at place `at`, into the first six words: its five, and the bytes it took; or six times 0 where the
 * packet ends. Each call judges the whole packet, so that no message of it is given unless all can be read: to read p messages to
 * the end is to judge the packet p + 1 times. Bytes behind the packet are not looked at.
 * Refusals: 22 under 2 bytes, a total under 2 or above the bytes lent, or messages that, walked by length fields of at least 4, do
 * not end exactly at it; 2, 3 or 5 of the first message that cannot be read; 22 no message starts at `at`, and the packet does not
 * end there; 6 fewer than six words lent. */
uint32_t sigma_packet_next(const uint8_t *packet, size_t packet_len, size_t at, uint32_t *words, size_t words_len);

/* Writes the total and then the bytes, which are messages one after another or none, at the start of `out`; the bytes behind the
 * packet stay. Refusals: 22 a total above 65535, or messages that do not end exactly with the bytes; 2, 3 or 5 as above;
 * 6 room short for 2 more than the bytes. */
uint32_t sigma_packet_pack(const uint8_t *bytes, size_t bytes_len, uint8_t *out, size_t out_len);

/* A record is words that stay where the host put them; an accepted call writes the new record over the old.
 * 0 is none. A record slice of another length, or one that holds no valid record, is refused 21.
 *   server: n, its number, owner, owner's timestamp, queue length, then client and timestamp of 32 places
 *   client: n, m, its number, section, timestamp, the largest timestamp seen, then owner and timestamp of the responses of servers 1 to 255
 * The messages that a step sends stand one after another at the start of `out`, and the bytes behind them stay;
 * `sent` takes their number and their bytes, in this order. A refused call leaves `sent` as it was, with what the last accepted one put
 * there or with anything: look at it only where the call returned 0. */
enum {
    SIGMA_SERVER_WORDS = 69,
    SIGMA_CLIENT_WORDS = 516,
    SIGMA_QUEUE_PLACES = 32,
    SIGMA_SENT_MESSAGES = 0,
    SIGMA_SENT_BYTES = 1,
    SIGMA_SENT_WORDS = 2
};

/* The places of a client's words; those of a server's have their names in struct sigma_host. A host reads the section, and writes none. */
enum {
    SIGMA_CLIENT_N = 0,
    SIGMA_CLIENT_M = 1,
    SIGMA_CLIENT_ID = 2,
    SIGMA_CLIENT_SECTION = 3,
    SIGMA_CLIENT_TIMESTAMP = 4,
    SIGMA_CLIENT_SEEN = 5,
    SIGMA_CLIENT_RESPONSES = 6 /* of server 1: the owner that it named, then the owner's timestamp; two words on, of server 2 .. */
};

/* The sections. */
enum {
    SIGMA_REMAINDER = 0,
    SIGMA_TRYING = 1,
    SIGMA_CRITICAL = 2
};

/* Writes the record of server `id` of 1 to n, without an owner, in the first 69 words.
 * Refusal: 7 a number out of range, or fewer words lent. */
uint32_t sigma_server_new(uint32_t n, uint32_t id, uint32_t *record, size_t record_len);

/* The server takes a REQUEST, YIELD, RELEASE or INQUIRY: five words, the first five of the six that sigma_read wrote.
 * Refusals: 21, 5 not five words, or a number out of range, 13 wrong kind or server, 14 queue full,
 * 6 fewer than two words in `sent`, or room short for all that is sent. */
uint32_t sigma_server_message(uint32_t *record, size_t record_len, const uint32_t *message, size_t message_len,
                              uint8_t *out, size_t out_len, uint32_t *sent, size_t sent_len);

/* The owner has crashed for good, and is removed, whoever it is. The call cannot know whether it has: with an owner that lives, two
 * clients can be inside. Refusals: 21, 15 no owner, 6 as above. */
uint32_t sigma_server_suspect(uint32_t *record, size_t record_len, uint8_t *out, size_t out_len,
                              uint32_t *sent, size_t sent_len);

/* CHECK to the owner, if there is one. Refusals: 21, 6 as above. */
uint32_t sigma_server_check(uint32_t *record, size_t record_len, uint8_t *out, size_t out_len,
                            uint32_t *sent, size_t sent_len);

/* A server's record as a struct, for a host that calls its numbers by name: the 69 words of the record, then what the last
 * accepted call sent. A new server is n and its number, and 0 everywhere else. The struct stays where the host put it;
 * an accepted call writes record and counts in it. A refused call leaves all of it: the counts are then still those of the last
 * accepted call, so look at them only where the call returned 0. */
struct sigma_request {
    uint32_t client;
    uint32_t timestamp;
};

struct sigma_host {
    uint32_t n;
    uint32_t id;
    uint32_t owner;
    uint32_t owner_timestamp;
    uint32_t queue_length;                         /* the places of the queue that are taken, from the first */
    struct sigma_request queue[SIGMA_QUEUE_PLACES];
    uint32_t sent;                                 /* messages */
    uint32_t bytes;
};

/* The server's three calls on a struct, which is not null. Refusals as above, but for `sent`, which has its room. */
uint32_t sigma_host_message(struct sigma_host *host, const uint32_t *message, size_t message_len, uint8_t *out, size_t out_len);
uint32_t sigma_host_suspect(struct sigma_host *host, uint8_t *out, size_t out_len);
uint32_t sigma_host_check(struct sigma_host *host, uint8_t *out, size_t out_len);

/* Writes the record of client `id` with n servers and threshold m, which has never tried and has seen nothing, in the first 516 words.
 * Whether m is safe is not asked here: sigma_setting says it.
 * Refusal: 7 a number out of range, or fewer words lent. */
uint32_t sigma_client_new(uint32_t n, uint32_t m, uint32_t id, uint32_t *record, size_t record_len);

/* The client, in its remainder section, starts trying, with a timestamp one above its last and all that it has seen.
 * Refusals: 21, 10 another section, 11 timestamps spent (the larger of the two above 4294967293), 6. */
uint32_t sigma_client_begin(uint32_t *record, size_t record_len, uint8_t *out, size_t out_len,
                            uint32_t *sent, size_t sent_len);

/* The client leaves its critical section, and takes its last timestamp plus one. Refusals: 21, 10 another section, 6. */
uint32_t sigma_client_exit(uint32_t *record, size_t record_len, uint8_t *out, size_t out_len,
                           uint32_t *sent, size_t sent_len);

/* The client takes a RESPONSE or CHECK, and has seen its timestamp, in any section, unless the call is refused.
 * Refusals: 21, 5 not five words, or a number out of range, 12 wrong kind, client or server, 6. */
uint32_t sigma_client_message(uint32_t *record, size_t record_len, const uint32_t *message, size_t message_len,
                              uint8_t *out, size_t out_len, uint32_t *sent, size_t sent_len);

/* A record that an earlier library saved is taken over, its queue or responses in front and the other places empty. `saved` is a whole record, in any
 * form that it has had:
 *   server: 37 words (n up to 31, 16 places), or today's 69; of a struct sigma_host these are the words before `sent`
 *   client: 67 words (n up to 31), 515 (both without what it has seen: taken over, it has seen nothing), or today's 516
 * The record of today stands in the first 69 or 516 words of `record`, another slice than `saved`, and the words behind it stay.
 * Refusals: 21 another length, or words that were no valid record by the rules of their own time, 6 fewer words lent. */
uint32_t sigma_server_upgrade(const uint32_t *saved, size_t saved_len, uint32_t *record, size_t record_len);
uint32_t sigma_client_upgrade(const uint32_t *saved, size_t saved_len, uint32_t *record, size_t record_len);

/* A setting is n servers, 1 to 255, threshold m, 1 to n, and faults f, 0 to n. An event is two words: its kind, and the
 * number of the client (try, exit, fall), server (down, up, miss, check) or message (take, drop). */
enum {
    SIGMA_EVENT_TRY = 1,
    SIGMA_EVENT_EXIT = 2,
    SIGMA_EVENT_FALL = 3,
    SIGMA_EVENT_DOWN = 4,
    SIGMA_EVENT_UP = 5,
    SIGMA_EVENT_TAKE = 6,
    SIGMA_EVENT_DROP = 7,
    SIGMA_EVENT_MISS = 8,
    SIGMA_EVENT_CHECK = 9,
    SIGMA_SETTING_WORDS = 2,
    SIGMA_EVENT_WORDS = 2
};

/* Judges a setting: 0 accepted, 8 unsafe (margin 0 or less), 9 stalls (m above n - f). All three write the first two words:
 * the margin, 2m - n - f, as a signed number in two's complement, and the events of the run that ends with two clients
 * in their critical sections, which is 0 unless 8. Refusals that write nothing: 7 out of range, 6 fewer than two words. */
uint32_t sigma_setting(uint32_t n, uint32_t m, uint32_t f, uint32_t *words, size_t words_len);

/* Event i, from 1, of the run that an unsafe setting is refused with, in the first two words.
 * Refusals: 7 out of range, 17 the run has no such event, or the setting is not refused 8, 6 fewer than two words. */
uint32_t sigma_run_event(uint32_t n, uint32_t m, uint32_t f, uint32_t i, uint32_t *words, size_t words_len);

/* The default threshold for n servers, two thirds of n rounded up, in the first word. It is accepted with f up to (n - 1) / 3, rounded down,
 * and with no more: sigma_setting says it of each f.
 * Refusals: 7 n out of range, 6 no word lent. */
uint32_t sigma_default_threshold(uint32_t n, uint32_t *words, size_t words_len);

/* A simulated system: n servers, 1 to 31, with threshold m, 1 to 16 clients, and at most 512 messages in transit, as words that stay where
 * the host put them. f is kept with them, and no event is held to it. An event is the two words of sigma_run_event. */
enum {
    SIGMA_SIMULATION_WORDS = 7440,
    SIGMA_ANSWER_WORDS = 2
};

/* A fresh start: all clients living, in the remainder section, all servers up, nothing sent.
 * Refusal: 7 a number out of range, or not 7440 words. */
uint32_t sigma_simulation_new(uint32_t n, uint32_t m, uint32_t f, uint32_t clients, uint32_t *words, size_t words_len);

/* An event: accepted, the words are the system after it, and the first two words of `answer` are the messages sent and the living
 * clients in the critical section. Refusals: 16 no such kind, 21 the words are no valid system, 17 no such client, server or
 * message, 18 the party is down or fallen, or up already, 15 no owner, 20 the owner lives, 10 wrong section, 11 timestamps spent,
 * 19 no place or number left for what is sent, 6 fewer than two words in `answer`. */
uint32_t sigma_simulation_event(uint32_t *words, size_t words_len, uint32_t kind, uint32_t number, uint32_t *answer, size_t answer_len);

/* A script of events, run on a simulated system: new, then feed for the input in parts of any size, then finish. The state is
 * words that stay where the host put them. What is printed stands at the start of `out`, and the bytes behind it stay;
 * `counts` takes the bytes of the input used and the bytes written. All that the calls write, joined, is the script's whole
 * output, however the input is cut and however small the buffers are. */
enum {
    SIGMA_SCRIPT_WORDS = 7486,
    SIGMA_SCRIPT_LINE = 52,
    SIGMA_SCRIPT_END = 104,
    SIGMA_SCRIPT_COUNTS = 2
};

/* A new script, before its first line. Refusal: 7 not 7486 words. */
uint32_t sigma_script_new(uint32_t *state, size_t state_len);

/* Takes in the input's bytes while there is room for one more line, which has at most 52 bytes: at least one byte, if there is
 * one. A host feeds what was not used again.
 * Refusals: 21 the state is not valid, 6 fewer than 52 bytes in `out` or two words in `counts`. */
uint32_t sigma_script_feed(uint32_t *state, size_t state_len, const uint8_t *input, size_t input_len, uint8_t *out, size_t out_len,
                           size_t *counts, size_t counts_len);

/* The end of the input: a last line without its newline, and the end line. Afterwards nothing more is printed. The bytes used
 * are 0. Refusals: 21, 6 fewer than 104 bytes in `out` or two words in `counts`. */
uint32_t sigma_script_finish(uint32_t *state, size_t state_len, uint8_t *out, size_t out_len, size_t *counts, size_t counts_len);

#ifdef __cplusplus
}
#endif

#endif
