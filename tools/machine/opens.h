/* What a run's console knows of the open that lives or ended last, and the sentence on a failure. */
#ifndef OPENS_H
#define OPENS_H

#include <stdbool.h>
#include <stddef.h>
#include <stdint.h>

enum { MOST_NAME = 1024, MOST_BLOCK = 1432, MOST_HEAD = 4096 };
enum { MOVED = 301, FOUND = 302, SEE_OTHER = 303, MOVED_FOR_NOW = 307, MOVED_FOR_GOOD = 308 }; /* RFC 9110, 15.4 */

struct text { char bytes[MOST_NAME]; };
extern struct open_seen {
    bool is_there, lives, has_name, is_unreachable, has_offer, has_ended_well, is_booted, is_read;
    unsigned number, kind, port, own, block_size;
    uint8_t server[4], offered[4], offerer[4];
    struct text target, name, first; /* the first target is that of the command's first file, before its moves */
    uint32_t place, size;            /* the last ADVANCE's; what the server says, or 0 */
    uint32_t ended;                  /* the run's time at ENDED, in ms */
    uint64_t begun, when, bytes;     /* the beginning and the last report, by the machine's clock */
    /* Of HTTP: the number of the stream's first byte, the record of the server's end, the response's status, what has come
     * of its head, and where its body begins, or 0. */
    uint32_t sequence, last_segment;
    uint64_t disk; /* of a drive its disk's object, which is entered from above first as it is begun; is_read says that it was again */
    unsigned response;
    size_t came, body;
    char head[MOST_HEAD + 1];
} current;
/* The tries of the message that was sent last: all, and those whose frame asks for no hardware address; and the run's
 * times at the first of each, in ms. */
extern struct tries_seen {
    unsigned all, sent;
    uint32_t first, first_sent;
    bool is_next, asks_hop, is_ack, is_syn;
    uint8_t hop[4];
} tries;
/* What a server said, and in which record. */
extern struct refusal_seen { uint32_t number; struct text text; } refusal;

struct text dotted(const uint8_t ip[4]);
bool is_move(unsigned status);
/* Why a command failed, by the nine bytes of its cause, in the words of `show.py --why`; and the cause's name. */
const char *sentence_on(const uint8_t *cause);
const char *name_of_cause(const uint8_t *cause);

#endif
