/* What a person sees of a run: commands, transfers with URI, percent and rate, and each failure with its cause and
 * a sentence on it. For an open that a server refused or left without an answer that is what `show.py --why` says.
 *
 * It follows the records and changes nothing of them. No byte of theirs steers a terminal: what can't be seen is
 * shown by its number. */
#define _GNU_SOURCE
#include <stdarg.h>
#include <stdbool.h>
#include <stdio.h>
#include <stdlib.h>
#include <string.h>
#include <strings.h>
#include <time.h>
#include "causes.h"
#include "console.h"
#include "drives.h"
#include "opens.h"
#include "packets.h"

enum { REPORT_MS = 2000, TICKS = 16, USUAL_BLOCK = 512 };
enum { ACK = 4, ERROR = 5, OACK = 6 };                                 /* of TFTP (RFC 1350, RFC 2347) */
enum { ADDRESS = 50, KIND = 53, SERVER = 54, MESSAGE = 56, NAK = 6 };  /* of DHCP (RFC 2132) */
enum { DOWN = 25, STOPPED };                                           /* causes of a close from above */
enum { ICMP = 1, DHCP_SERVER = 67, FIN = 1, SYN = 2, TCP_HEAD = 20 };
enum { ENTERED = 5, FROM_ABOVE = 1 };                                  /* of a graph */

struct open_seen current;
struct tries_seen tries;
struct refusal_seen refusal;
static struct { uint32_t number, ms; } ticks[TICKS]; /* the last ones, and the run's time at each */
static unsigned tick;
static uint32_t step;
static uint8_t own_address[4];
static bool is_in_line, is_at_open, is_disk, boots_disk;

/* ---- lines ---- */
uint64_t now_ms(void) {
    struct timespec now;
    clock_gettime(CLOCK_BOOTTIME, &now);
    return (uint64_t)now.tv_sec * 1000 + (uint64_t)now.tv_nsec / 1000000;
}
static void begin_line(void) {
    printf("%s[%9.3f] ", is_in_line ? "\n" : "", (double)now_ms() / 1000);
    is_at_open = false;
}
static void end_line(void) { putchar('\n'), fflush(stdout), is_in_line = is_at_open = false; }
void say(const char *form, ...) {
    va_list rest;
    va_start(rest, form), begin_line(), vprintf(form, rest), end_line(), va_end(rest);
}
static void show(const uint8_t *bytes, size_t size, bool is_text) {
    for (size_t i = 0; i < size; i++)
        if ((bytes[i] >= 32 && bytes[i] < 127) || (is_text && (bytes[i] == '\n' || bytes[i] == '\t')))
            putchar(bytes[i]);
        else printf("\\x%02x", bytes[i]);
    if (size) is_in_line = bytes[size - 1] != '\n', is_at_open = false;
}
/* A word of a sentence, within quotation marks where it needs them; a long one is cut. */
static struct text word(const uint8_t *bytes, size_t size) {
    static const char names[] = "\tt\nn\rr\"\"\\\\";
    struct text made = {""};
    bool is_plain = size > 0;
    for (size_t i = 0; i < size; i++)
        is_plain &= bytes[i] > 32 && bytes[i] < 127 && bytes[i] != '"' && bytes[i] != '\\';
    char *at = made.bytes;
    if (!is_plain) *at++ = '"';
    for (size_t i = 0; i < size && at < made.bytes + MOST_NAME - 8; i++) {
        const char *named = bytes[i] ? strchr(names, bytes[i]) : 0;
        if (!is_plain && named && !((named - names) & 1)) *at++ = '\\', *at++ = named[1];
        else if (bytes[i] >= 32 && bytes[i] < 127) *at++ = (char)bytes[i];
        else at += snprintf(at, 5, "\\x%02x", bytes[i]);
    }
    if (!is_plain) *at++ = '"';
    *at = 0;
    return made;
}
/* The run's time at the client's step: that of the last TICK before it. */
static uint32_t run_ms(void) {
    uint32_t ms = 0;
    for (unsigned i = 0; i < TICKS; i++)
        if (ticks[i].number <= step && ticks[i].ms > ms) ms = ticks[i].ms;
    return ms;
}
/* ---- frames ---- */
static uint32_t decimal(const char *text) {
    uint64_t value = 0;
    for (; *text >= '0' && *text <= '9' && value <= UINT32_MAX; text++) value = value * 10 + (uint64_t)(*text - '0');
    return *text || value > UINT32_MAX ? 0 : (uint32_t)value;
}
/* What an OACK grants: pairs of texts, each with a zero byte after it. */
static void note_options(const uint8_t *bytes, size_t size) {
    const char *name = 0;
    for (const uint8_t *end; size && (end = memchr(bytes, 0, size)); bytes = end + 1) {
        const char *text = (const char *)bytes;
        if (name && !strcasecmp(name, "blksize")) current.block_size = decimal(text);
        if (name && !strcasecmp(name, "tsize")) current.size = decimal(text);
        name = name ? 0 : text, size -= (size_t)(end + 1 - bytes);
    }
}
static void note_tftp(uint32_t number, const struct datagram *came) {
    unsigned opcode = came->size < 4 ? 0 : get16(came->bytes);
    if (came->to != current.own || memcmp(came->source, current.server, 4)) return;
    if (opcode == OACK) note_options(came->bytes + 2, came->size - 2);
    if (opcode != ERROR) return;
    const uint8_t *text = came->bytes + 4, *end = came->size > 4 ? memchr(text, 0, came->size - 4) : 0;
    size_t length = end ? (size_t)(end - text) : came->size - 4;
    refusal.number = number, refusal.text = length ? word(text, length) : (struct text){""};
}
static void note_lease(uint32_t number, const struct datagram *came) {
    size_t size = 0;
    const uint8_t *kind = option(came, KIND, 1, &size), *text;
    if (came->from != DHCP_SERVER || !kind || *kind != NAK) return;
    text = option(came, MESSAGE, 1, &size);
    refusal.number = number, refusal.text = text ? word(text, size) : (struct text){""};
}
static void read_head(void) {
    char *head = current.head, *blank = memmem(head, current.came, "\n\r\n", 3);
    char *short_blank = memmem(head, current.came, "\n\n", 2);
    size_t skipped = short_blank && (!blank || short_blank < blank) ? 2 : 3;
    char *end = skipped == 2 ? short_blank : blank;
    if (!end) return;
    *end = 0, current.body = (size_t)(end - head) + skipped;
    const char *length = strcasestr(head, "\ncontent-length:");
    unsigned long long size = length ? strtoull(strchr(length, ':') + 1, 0, 10) : 0;
    if (sscanf(head, "HTTP/%*u.%*u %3u", &current.response) != 1) current.response = 0;
    if (size <= UINT32_MAX && !strcasestr(head, "\ntransfer-encoding:")) current.size = (uint32_t)size;
}
/* The response's beginning, in whatever order it comes; ADVANCE says how much of it is there without a gap. */
static void note_response(uint32_t at, const uint8_t *bytes, size_t size) {
    if (current.body || at >= MOST_HEAD) return;
    memcpy(current.head + at, bytes, size < MOST_HEAD - at ? size : MOST_HEAD - at);
}
static void note_segment(uint32_t number, const uint8_t *f, size_t size) {
    size_t length = 0, head = 0;
    const uint8_t *segment = packet_body(TCP, f, size, &length);
    if (!segment || length < TCP_HEAD || memcmp(f + 26, current.server, 4)) return;
    if (get16(segment) != current.port || get16(segment + 2) != current.own) return;
    head = (size_t)(segment[12] >> 4) * 4;
    if (head < TCP_HEAD || head > length) return;
    if (segment[13] & FIN) current.last_segment = number;
    if (current.kind == ISCSI) { note_pdus(number, segment + head, length - head); return; }
    if (segment[13] & SYN) current.sequence = get32(segment + 4) + 1;
    else note_response(get32(segment + 4) - current.sequence, segment + head, length - head);
}
/* What a server says of the open that lives. */
static void note_frame(uint32_t number, const uint8_t *f, size_t size) {
    struct datagram came;
    size_t length = 0;
    const uint8_t *icmp = packet_body(ICMP, f, size, &length);
    if (!current.lives) return;
    if (icmp && length >= 28 && icmp[0] == 3 && icmp[1] == 3 && !memcmp(f + 26, current.server, 4))
        current.is_unreachable |= !memcmp(icmp + 24, current.server, 4);
    if (current.kind == HTTP || current.kind == ISCSI) note_segment(number, f, size);
    if (!read_datagram(f, size, &came)) return;
    if (current.kind == TFTP) note_tftp(number, &came);
    if (current.kind == DHCP) note_lease(number, &came);
}
/* What the client asks for by this frame, which is that of a TRY. */
static void note_try(const uint8_t *f, size_t size) {
    struct datagram sent = {0};
    size_t length = 0;
    tries.is_next = false;
    tries.asks_hop = get16(f + 12) == ARP && size >= 42;
    if (tries.asks_hop) { memcpy(tries.hop, f + 38, 4); return; }
    if (!tries.sent++) tries.first_sent = run_ms();
    const uint8_t *segment = packet_body(TCP, f, size, &length);
    tries.is_syn = segment && length >= TCP_HEAD && segment[13] & SYN;
    bool is_datagram = read_datagram(f, size, &sent);
    tries.is_ack = is_datagram && current.kind == TFTP && sent.size >= 4 && get16(sent.bytes) == ACK;
    if (!is_datagram || current.kind != DHCP) return;
    const uint8_t *server = option(&sent, SERVER, 4, &length), *address = option(&sent, ADDRESS, 4, &length);
    current.has_offer = server && address;
    if (current.has_offer) memcpy(current.offerer, server, 4), memcpy(current.offered, address, 4);
}

/* ---- opens ---- */
static void name_open(void) {
    struct text ip = dotted(current.server);
    const char *target = current.target.bytes;
    if (current.kind == TFTP) printf("  tftp://%s/%s...", current.has_name ? current.name.bytes : ip.bytes, target);
    else if (current.kind == HTTP) printf("  %s...", target);
    else if (current.kind == DHCP) printf("  a lease...");
    else if (current.kind == PING) printf("  %s...", current.has_name ? current.name.bytes : ip.bytes);
    else if (current.kind == ISCSI) printf("  %s at %s...", drive_text().bytes, ip.bytes);
    else printf("  %s of %s...", target, ip.bytes);
}
/* The line on the open, once more at its place where nothing else was said since. */
static void begin_again(void) {
    if (is_at_open) printf("\r[%9.3f] ", (double)now_ms() / 1000);
    else begin_line();
    name_open();
}
static uint64_t bytes_now(void) {
    uint64_t bytes = current.kind == TFTP ? (uint64_t)current.place * current.block_size : current.place;
    if (current.kind == HTTP) bytes = bytes > current.body ? bytes - current.body : 0;
    return current.size && bytes > current.size ? current.size : bytes;
}
static uint64_t rate(uint64_t bytes, uint64_t ms) { return bytes / (ms ? ms : 1); }
static void begin_open(const uint8_t *body) {
    size_t size = get16(body + 11), after = body[2] == ISCSI && size > UNIT_LENGTH ? UNIT_LENGTH + 1 : 0;
    struct text target = word(body + 13, size - after), name = current.target;
    if (after) name_unit(body + 13 + size - UNIT_LENGTH);
    bool has_name = current.is_there && current.kind == DNS && !current.lives && get16(body) == current.number + 1;
    struct text first = body[2] == HTTP ? target : (struct text){""};
    if (current.is_there && current.first.bytes[0]) first = current.first;
    memset(&current, 0, sizeof current), memset(&tries, 0, sizeof tries), memset(&refusal, 0, sizeof refusal);
    current.is_there = current.lives = true, current.has_name = has_name;
    current.target = target, current.name = name, current.first = first, current.is_booted = boots_disk;
    current.number = get16(body), current.kind = body[2] < OPENS ? body[2] : 0, current.block_size = USUAL_BLOCK;
    current.port = get16(body + 7), current.own = get16(body + 9), current.begun = current.when = now_ms();
    memcpy(current.server, body + 3, 4);
    begin_line(), name_open(), fflush(stdout), is_in_line = is_at_open = true;
}
static void advance(const uint8_t *body) {
    uint64_t now = now_ms(), passed = now - current.when;
    advance_drive(get16(body), get32(body + 2));
    if (get16(body) != current.number) return;
    current.place = get32(body + 2);
    if (current.kind == HTTP && !current.body)
        current.came = current.place < MOST_HEAD ? current.place : MOST_HEAD, read_head();
    if (passed < REPORT_MS || !current.lives) return;
    uint64_t bytes = bytes_now(), speed = rate(bytes - current.bytes, passed);
    begin_again();
    printf(" %llu%s, %llu kB/s   ", (unsigned long long)(current.size ? bytes * 100 / current.size : bytes / 1000),
           current.size ? "%" : " kB", (unsigned long long)speed);
    fflush(stdout), is_in_line = is_at_open = true, current.when = now, current.bytes = bytes;
}
static void end_open(const uint8_t *body) {
    const char *drive = drive_of(get16(body));
    if (drive && body[2] != DOWN && body[2] != STOPPED) say("the session with %s has ended", drive);
    if (get16(body) != current.number || !current.lives) return;
    current.lives = false, current.ended = run_ms();
    if (body[2]) return;
    current.has_ended_well = true;
    begin_again(), printf(current.kind == HTTP && is_move(current.response) ? " has moved" : " ok");
    if (current.size && !(current.kind == HTTP && is_move(current.response)))
        printf(", %u bytes, %llu kB/s", current.size, (unsigned long long)rate(current.size, now_ms() - current.begun));
    end_line();
}

/* A drive that is hooked: its open lives on. One that was read is booted by that. */
static void say_hooked(void) {
    if (!current.is_there || !current.lives || current.kind != ISCSI) return;
    begin_again(), printf(current.is_read ? " is booted" : " is hooked"), end_line();
    if (!current.is_read) keep_drive();
}

/* ---- records ---- */
static void say_command(const uint8_t *body, size_t size) {
    static const char boot[] = "sanboot";
    size_t first = sizeof boot - 1;
    current.is_there = false;
    boots_disk = size >= 10 + first && get16(body + 8) == first && !memcmp(body + 10, boot, first);
    begin_line();
    for (size_t at = 8, n = 0; at < size; at += 2 + n) {
        n = get16(body + at), show(body + at + 2, n, false);
        if (at + 2 + n < size) putchar(' ');
    }
    end_line();
}
/* The client's address, which it says in each packet, is shown when it is another. */
static void show_address(const uint8_t *f, size_t size, const char *device) {
    unsigned carries = get16(f + 12);
    const uint8_t *ip = f + (carries == ARP ? 28 : 26);
    if (size < 34 || (carries != IPV4 && carries != ARP) || !get32(ip) || !memcmp(ip, own_address, 4)) return;
    memcpy(own_address, ip, 4);
    say("%s: the address is %s", device, dotted(ip).bytes);
}
static void say_end(unsigned status) {
    if (status == 0) say("the boot succeeded: %s is handed off", is_disk ? "a disk's first sector" : "a kernel");
    if (status == 3) say("the script ended, and hands nothing off");
    if (status == 4) say("the script failed");
    if (status == 5) say("the power was switched off before the script's end");
}
void see_input(uint32_t number, enum type type, const uint8_t *body, size_t size) {
    if (type == FRAME) note_frame(number, body, size);
    if (type != TICK) return;
    uint32_t before = ticks[tick % TICKS].ms;
    tick++, ticks[tick % TICKS].number = number, ticks[tick % TICKS].ms = before + get16(body);
}
void see_output(enum type type, const uint8_t *body, size_t size, const char *device) {
    if (type == STEP) step = get32(body);
    if (type == SENT && tries.is_next) note_try(body, size);
    if (type == SENT) show_address(body, size, device);
    if (type == TEXT && is_at_open) end_line();
    if (type == TEXT) show(body, size, true), fflush(stdout);
    if (type == COMMAND) say_command(body, size);
    if (type == RESULT && !body[0]) say_hooked();
    if (type == RESULT && body[0])
        say("  failed: %s %u %u: %s", name_of_cause(body), get32(body + 1), get32(body + 5), sentence_on(body));
    if (type == OPEN) begin_open(body);
    if (type == TRY && get16(body) == current.number) {
        if (body[2] == 1) tries.all = tries.sent = 0, tries.is_ack = tries.asks_hop = tries.is_syn = false;
        if (!tries.all++) tries.first = run_ms();
        tries.is_next = true;
    }
    if (type == ADVANCE) advance(body);
    if (type == ENDED) end_open(body);
    if (type == GRAPH && body[0] == ENTERED && !body[9] && body[18] == FROM_ABOVE)
        enter_disk((uint64_t)get32(body + 1) << 32 | get32(body + 5));
    if (type == PART) is_disk |= body[0] == SECTOR;
    if (type == DONE) say_end(body[0]);
}
