/* Why a drive wasn't hooked, in the words of `show.py --why`: by the codes of a target, and by what it sent last. */
#define _GNU_SOURCE
#include <stdio.h>
#include <string.h>
#include "drives.h"
#include "records.h"

enum { HEAD = 48, RESPONSE = 0x21, LOGIN_RESPONSE = 0x23, DATA_IN = 0x25, BLOCK = 512, CAPACITY = 8, RESET = 65535, MOST_CODE = 255 };
enum { REFUSED = 1, BROKEN = 3, NO_SECRET = 11 }; /* causes */

/* What a login's status says, by its class and detail (RFC 7143, section 11.13.5), and what to do about it. */
static const struct { unsigned code; const char *says, *to_do; } logins[] = {
    {257, "the target has moved for some time, and such moves aren't followed", "name the server in the URI to which it has moved"},
    {258, "the target has moved for good, and such moves aren't followed", "name the server in the URI to which it has moved"},
    {512, "the initiator has made a mistake", 0},
    {513, "the user or the secret is wrong, or CHAP is wanted and wasn't offered",
     "let `username` and `password` be what the target wants"},
    {514, "this initiator may not use the target", "let the target serve this initiator, by its name or its address"},
    {515, "there is no such target", "mend the target's name, or serve it there"},
    {516, "the target was removed, and none stands in its place", 0},
    {517, "the version of iSCSI isn't served", 0},
    {518, "there are too many connections", 0},
    {519, "a parameter is missing", 0},
    {768, "the target has failed", 0},
    {769, "the service isn't there for now", 0},
    {770, "the target has no resources left", 0},
};
static const struct { unsigned code; const char *name; } statuses[] = {
    {2, "check condition"}, {8, "busy"}, {0x18, "reservation conflict"}, {0x28, "task set full"},
};
enum { DRIVES = 2 };
enum { MOST_UNIT = 24 };
static struct { bool is_there; struct text text; char unit[MOST_UNIT]; struct open_seen open; } drives[DRIVES];
static char sentence[4096];
static char unit[MOST_UNIT];
static uint32_t pdu_number;
static uint8_t pdu[1024];
static size_t pdu_size;

void name_unit(const uint8_t bytes[UNIT_LENGTH]) {
    size_t words = UNIT_LENGTH / 2, size = 0;
    while (words > 1 && !get16(bytes + 2 * (words - 1))) words--;
    for (size_t i = 0; i < words; i++)
        size += (size_t)snprintf(unit + size, sizeof unit - size, "%s%x", i ? "-" : "", get16(bytes + 2 * i));
    pdu_size = 0;
}
struct text drive_text(void) {
    struct text made;
    snprintf(made.bytes, sizeof made.bytes, "unit %s of %.900s", unit, current.target.bytes);
    return made;
}
struct text session_text(void) {
    struct text made;
    snprintf(made.bytes, sizeof made.bytes, "%.900s, unit %s", current.target.bytes, unit);
    return made;
}
void keep_drive(void) {
    for (size_t i = 0; i < DRIVES; i++)
        if (!drives[i].is_there) {
            drives[i].is_there = true, drives[i].open = current, drives[i].text = drive_text();
            memcpy(drives[i].unit, unit, sizeof unit);
            return;
        }
}
const char *drive_of(unsigned number) {
    for (size_t i = 0; i < DRIVES; i++)
        if (drives[i].is_there && drives[i].open.number == number) return drives[i].is_there = false, drives[i].text.bytes;
    return 0;
}
void advance_drive(unsigned number, uint32_t place) {
    for (size_t i = 0; i < DRIVES; i++)
        if (drives[i].is_there && drives[i].open.number == number) drives[i].open.place = place;
}
void enter_disk(uint64_t object) {
    if (current.is_there && current.lives && current.kind == ISCSI && (!current.disk || current.disk == object)) {
        current.is_read = current.disk == object, current.disk = object;
        return;
    }
    for (size_t i = 0; i < DRIVES; i++)
        if (drives[i].is_there && drives[i].open.disk == object) {
            current = drives[i].open, current.is_there = current.is_read = true, pdu_size = 0;
            memcpy(unit, drives[i].unit, sizeof unit);
            memset(&tries, 0, sizeof tries);
        }
}
/* The last of them is kept, as far as the segment has it. */
void note_pdus(uint32_t number, const uint8_t *bytes, size_t size) {
    while (size >= HEAD) {
        size_t length = get32(bytes + 4) & 0xffffffu, whole = HEAD + 4u * bytes[4] + length + (4 - length % 4) % 4;
        pdu_number = number, pdu_size = size < sizeof pdu ? size : sizeof pdu;
        if (pdu_size > whole) pdu_size = whole;
        memcpy(pdu, bytes, pdu_size);
        if (whole >= size) return;
        bytes += whole, size -= whole;
    }
}
/* The value of a login's key, or null. */
static const char *key(const char *name) {
    static char value[64];
    size_t length = strlen(name), at = HEAD;
    while (at + length < pdu_size) {
        const uint8_t *end = memchr(pdu + at, 0, pdu_size - at);
        size_t size = end ? (size_t)(end - pdu) - at : pdu_size - at;
        if (size > length && !memcmp(pdu + at, name, length) && pdu[at + length] == '=') {
            snprintf(value, sizeof value, "%.*s", (int)(size - length - 1), (const char *)pdu + at + length + 1);
            return value;
        }
        at += size + 1;
    }
    return 0;
}
static int is_other(const char *name) {
    const char *value = key(name);
    return value && strcmp(value, "None") != 0;
}
static void say(const char *server, const char *form) {
    struct text text = drive_text();
    snprintf(sentence, sizeof sentence, form, server, current.target.bytes, text.bytes);
}
/* What is wrong with the target's last PDU, where that is one of these. */
static int say_fault(const char *server) {
    unsigned opcode = pdu[0] & 0x3f;
    if (opcode == LOGIN_RESPONSE && (key("CHAP_R") || key("CHAP_N")))
        return say(server, "%2$s of %1$s didn't prove itself: its answer isn't by `reverse-username` and `reverse-password`"), 1;
    if (opcode == LOGIN_RESPONSE && (is_other("HeaderDigest") || is_other("DataDigest")))
        return say(server, "%2$s of %1$s wants a digest, and none is built"), 1;
    if (opcode == LOGIN_RESPONSE && !is_other("AuthMethod"))
        return say(server, "%1$s let the client in to %2$s without CHAP, and `reverse-username` is set; or it broke off the login"), 1;
    if (opcode != DATA_IN || pdu_size < HEAD + CAPACITY || (get32(pdu + 4) & 0xffffffu) != CAPACITY) return 0;
    uint32_t last = get32(pdu + HEAD), length = get32(pdu + HEAD + 4);
    if (length != BLOCK) {
        struct text text = drive_text();
        snprintf(sentence, sizeof sentence, "%s at %s has blocks of %u bytes, and only %d are read", text.bytes, server, length, BLOCK);
        return 1;
    }
    if (last != UINT32_MAX) return 0;
    return say(server, "%3$s at %1$s has more blocks than READ CAPACITY(10) can say: 2 TiB and more aren't read"), 1;
}
static void say_break(const char *server, uint32_t number) {
    unsigned opcode = pdu[0] & 0x3f;
    bool has_pdu = number == pdu_number && pdu_size, is_of_read = has_pdu && (opcode == DATA_IN || opcode == RESPONSE);
    if (has_pdu && !current.is_read && say_fault(server)) return;
    if (number == current.last_segment)
        snprintf(sentence, sizeof sentence, "%s closed the connection of the session with %.900s, after %u bytes", server,
                 current.target.bytes, current.place);
    else if (current.is_read && is_of_read) say(server, "%1$s didn't send the first block of %3$s whole and in order");
    else say(server, "%1$s sent what isn't allowed in the session with %2$s");
}
static void say_status(const char *server, uint32_t code) {
    struct text text = drive_text();
    const char *name = 0;
    for (size_t i = 0; i < sizeof statuses / sizeof *statuses; i++)
        if (statuses[i].code == code) name = statuses[i].name;
    int size = snprintf(sentence, sizeof sentence, "%s answered a command for %s: ", server, text.bytes);
    snprintf(sentence + size, sizeof sentence - (size_t)size, name ? "%2$s (SCSI status %1$u)" : "SCSI status %u", code, name);
}
static void say_refusal(const char *server, uint32_t code) {
    const char *target = current.target.bytes, *says = 0;
    if (code == RESET && current.place) { say(server, "%1$s reset the connection of the session with %2$s"); return; }
    if (code == RESET) {
        snprintf(sentence, sizeof sentence, "%s reset the connection to its port %u, as where no target listens there: %.900s",
                 server, current.port, target);
        return;
    }
    if (code <= MOST_CODE) { say_status(server, code); return; }
    for (size_t i = 0; i < sizeof logins / sizeof *logins; i++)
        if (logins[i].code == code) says = logins[i].says;
    int size = snprintf(sentence, sizeof sentence, "%s refused the login to %.900s: %s%s", server, target, says ? says : "",
                        says ? " (" : "");
    snprintf(sentence + size, sizeof sentence - (size_t)size, "class %u, detail %u%s", code / 256, code % 256, says ? ")" : "");
}
const char *sentence_on_drive(const char *server, unsigned cause, uint32_t number, uint32_t code) {
    if (cause == REFUSED) say_refusal(server, code);
    else if (cause == BROKEN) say_break(server, number);
    else if (cause == NO_SECRET) say(server, "%2$s of %1$s asks for CHAP, and `username` or `password` isn't set");
    else return 0;
    return sentence;
}
const char *advice_on_drive(unsigned cause, uint32_t code) {
    if (cause == NO_SECRET) return current.is_booted ? "set both before `sanboot`" : "set both before `sanhook`";
    if (cause == REFUSED && code == RESET) return "see that a target listens there";
    if (cause == REFUSED && code <= MOST_CODE) return "see that the target has that unit, and that it is ready";
    for (size_t i = 0; cause == REFUSED && i < sizeof logins / sizeof *logins; i++)
        if (logins[i].code == code && logins[i].to_do) return logins[i].to_do;
    return "see the target's log";
}
