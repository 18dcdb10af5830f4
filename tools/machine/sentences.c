/* Why a command failed, in the words of `show.py --why` where a server refused, was silent or broke a rule. */
#include <stdarg.h>
#include <stdio.h>
#include <string.h>
#include "causes.h"
#include "drives.h"
#include "opens.h"
#include "records.h"

enum { MOST_SENTENCE = 8192, RESET = 65535 };
enum { REFUSED = 1, TIMED_OUT, BROKEN, TOO_LONG = 5, TOO_LARGE, TOO_MANY, NO_SERVER = 10, NO_SECRET, BAD_URI = 15, NO_SCHEME,
       BAD_NAME, UNKNOWN = 22 }; /* causes */

static char sentence[MOST_SENTENCE];

__attribute__((format(printf, 1, 2))) static void add(const char *form, ...) {
    size_t size = strlen(sentence);
    va_list rest;
    va_start(rest, form), vsnprintf(sentence + size, sizeof sentence - size, form, rest), va_end(rest);
}
struct text dotted(const uint8_t ip[4]) {
    struct text made;
    snprintf(made.bytes, sizeof made.bytes, "%d.%d.%d.%d", ip[0], ip[1], ip[2], ip[3]);
    return made;
}

static struct text server_name(void) {
    struct text made, ip = dotted(current.server);
    if (current.kind == DNS) snprintf(made.bytes, sizeof made.bytes, "the name server %.15s", ip.bytes);
    else if (current.has_name) snprintf(made.bytes, sizeof made.bytes, "%.512s (%.15s)", current.name.bytes, ip.bytes);
    else made = ip;
    return made;
}
static void add_times(unsigned number) {
    static const char *const names[] = {"never", "once", "twice", "three", "four", "five", "six", "seven", "eight",
                                        "nine", "ten"};
    if (number < 3) add("%s", names[number]);
    else if (number < sizeof names / sizeof *names) add("%s times", names[number]);
    else add("%u times", number);
}
static void add_name_hint(void) {
    const char *name = current.target.bytes;
    size_t size = strlen(name);
    if (name[0] == '[') add("; %s is an address of IPv6, which isn't built, and so was looked up", name);
    else if (size && strspn(name, "0123456789.") == size)
        add("; %s isn't four decimals from 0 to 255, and so no address, and was looked up", name);
    else if (!strchr(name, '.')) add("; %s has no dot, and no `domain` was set to stand after it", name);
}
/* A response that refuses, or a connection that was reset before it was whole. */
static void add_response_status(uint32_t code) {
    struct text server = server_name();
    const char *url = current.target.bytes, *phrase = 0;
    for (size_t i = 0; i < HTTP_STATUSES; i++)
        if (http_statuses[i].code == code) phrase = http_statuses[i].phrase;
    if (code == RESET && current.place)
        add("%s reset the connection after %u bytes of its response for %s", server.bytes, current.place, url);
    else if (code == RESET)
        add("%s reset the connection to its port %u, as where nobody listens there: %s", server.bytes, current.port, url);
    else if (phrase) add("%s answered: %u %s (%s)", server.bytes, code, phrase, url);
    else add("%s answered: status %u (%s)", server.bytes, code, url);
    if (is_move(code)) add("; it names no place to which it has moved");
}
static void add_refusal(uint32_t number, uint32_t code) {
    struct text server = server_name(), said = number == refusal.number ? refusal.text : (struct text){""};
    const char *path = current.target.bytes;
    if (current.kind == DHCP && current.has_offer)
        add("the DHCP server %s offered %s, and then refused to lease it (NAK)", dotted(current.offerer).bytes,
            dotted(current.offered).bytes);
    else if (current.kind == DHCP) add("the DHCP server refused the lease (NAK)");
    if (current.kind == DHCP && said.bytes[0]) add(": %s", said.bytes);
    if (current.kind == DNS && !code) add("%s has no IPv4 address, as %s answered", path, server.bytes), add_name_hint();
    else if (current.kind == DNS && code < DNS_REFUSALS)
        add("%s answered, when asked for %s: %s", server.bytes, path, dns_refusals[code]), add_name_hint();
    else if (current.kind == DNS)
        add("%s answered, when asked for %s: response code %u", server.bytes, path, code), add_name_hint();
    if (current.kind == HTTP) add_response_status(code);
    if (current.kind == DNS || current.kind == DHCP || current.kind == HTTP) return;
    if (code && code < TFTP_ERRORS) add("%s answered: %s (%s)", server.bytes, tftp_errors[code], path);
    else if (said.bytes[0]) add("%s answered: %s, when asked for %s", server.bytes, said.bytes, path);
    else add("%s answered: error %u, when asked for %s", server.bytes, code, path);
}
/* Of a connection: its SYN, its request, or nothing that waits to be acknowledged, and then probes. */
static void add_silent_connection(bool is_answered) {
    const char *url = current.target.bytes;
    if (is_answered && !tries.is_syn && current.kind == ISCSI) add("it was asked ");
    else if (is_answered && !tries.is_syn) add("it was asked on %s", url);
    else if (!is_answered) add("%s %s ", server_name().bytes, tries.is_syn ? "never answered:" : "stopped answering");
    if (tries.is_syn) add("a connection to its port %u was asked for", current.port);
    else if (current.kind == ISCSI) add("in the session with %s", session_text().bytes);
    else if (!is_answered && current.place) add("after %u bytes of its response for %s", current.place, url);
    else if (!is_answered) add("when asked for %s", url);
}
/* What was done, where an answer came that didn't count; or who is silent. */
static void add_silent(bool is_answered) {
    struct text server = server_name(), who = server, last = {""}, target = current.target;
    const char *path = target.bytes;
    if (!tries.sent && memcmp(tries.hop, current.server, 4))
        snprintf(who.bytes, sizeof who.bytes, "the gateway %.15s", dotted(tries.hop).bytes);
    if (current.place) snprintf(last.bytes, sizeof last.bytes, "block %u of %.512s", current.place, path);
    else if (tries.is_ack) snprintf(last.bytes, sizeof last.bytes, "its OACK for %.512s", path);
    if (!tries.sent && is_answered) add("the hardware address of %s was asked for", who.bytes);
    else if (!tries.sent) add("%s never answered: its hardware address was asked for", who.bytes);
    else if (current.kind == DHCP && !current.has_offer)
        add(is_answered ? "a lease was asked for" : "no DHCP server offered a lease: one was asked for");
    else if (current.kind == DHCP && is_answered) add("the lease of %s was asked for", dotted(current.offered).bytes);
    else if (current.kind == DHCP)
        add("the DHCP server %s offered %s, and never answered the request for it, which was sent",
            dotted(current.offerer).bytes, dotted(current.offered).bytes);
    else if (current.kind == HTTP || current.kind == ISCSI) add_silent_connection(is_answered);
    else if (current.kind == PING) add(is_answered ? "%s was pinged" : "%s never answered: it was pinged", server.bytes);
    else if (current.kind == DNS && is_answered) add("it was asked for %s", path);
    else if (current.kind == DNS) add("%s never answered: it was asked for %s", server.bytes, path);
    else if (last.bytes[0] && is_answered) add("%s was acknowledged", last.bytes);
    else if (last.bytes[0]) add("%s stopped answering after %s, which was acknowledged", server.bytes, last.bytes);
    else if (is_answered) add("%s was asked for", path);
    else add("%s never answered: %s was asked for", server.bytes, path);
}
static void add_silence(void) {
    struct text ip = dotted(current.server);
    if (current.is_unreachable)
        add("nobody listens at port %u of %s, as it answered by ICMP (port unreachable); ", current.port, ip.bytes);
    add_silent(current.is_unreachable), add(" "), add_times(tries.sent ? tries.sent : tries.all);
    uint32_t span = current.ended - (tries.sent ? tries.first_sent : tries.first);
    add(" in %g s", (double)span / 1000);
}
static void add_break(uint32_t number) {
    struct text server = server_name();
    const char *url = current.target.bytes;
    if (current.kind == HTTP && number == current.last_segment)
        add("%s closed the connection after %u bytes, before its response for %s was whole", server.bytes,
            current.place, url);
    else if (current.kind == HTTP)
        add("%s sent no response of HTTP for %s, or a body that isn't framed as its head says", server.bytes, url);
    else if (current.kind == TFTP && current.block_size > MOST_BLOCK)
        add("%s grants blocks of %u bytes of %s, and at most %d are asked for, as where a capture's client asked for "
            "more", server.bytes, current.block_size, current.target.bytes, MOST_BLOCK);
    else add("%s sent what isn't allowed in its place", server.bytes);
}
/* What to do where nobody answers. */
static const char *of_silence(void) {
    static const char *const by_kind[OPENS] = {
        [TFTP] = "see that a TFTP server runs there, and that no firewall stops it",
        [DNS] = "see that a name server runs there, or give another by `set dns ADDRESS`",
        [DHCP] = "see that a DHCP server serves this net and this client",
        [PING] = "see that it is switched on, and answers pings",
        [ISCSI] = "see that a target listens there, and that no firewall stops it",
    };
    return tries.asks_hop ? "see that it is switched on, and in the client's net" : by_kind[current.kind];
}
/* What to do where a server refuses by this code, or sent what isn't allowed. */
static const char *of_refusal(unsigned cause, uint32_t code) {
    if (current.kind == DNS) return "mend the name, or add it at the name server";
    if (current.kind == TFTP && cause == BROKEN)
        return "let the server grant blocks of at most 1432 bytes, if that is what it did; else see its log";
    if (current.kind == TFTP && code == 1) return "put the file there, or mend its name";
    if (current.kind == TFTP && code == 2) return "let the server read the file";
    return "see the server's log";
}
static void add_advice(unsigned cause, uint32_t code) {
    bool is_silent = cause == TIMED_OUT;
    const char *to_do = is_silent ? of_silence() : current.kind == ISCSI ? advice_on_drive(cause, code) : of_refusal(cause, code);
    if (is_silent && current.is_unreachable) add(". To do: start a server for %s there", open_kinds[current.kind]);
    else if (to_do) add(". To do: %s", to_do);
}
bool is_move(unsigned status) {
    return status == MOVED || status == FOUND || status == SEE_OTHER || status == MOVED_FOR_NOW || status == MOVED_FOR_GOOD;
}
/* A response that passes a limit, or that has moved the file to what isn't fetched; whether it does. */
static bool add_limit(unsigned code, uint32_t what) {
    struct text server = server_name();
    const char *url = current.target.bytes;
    bool is_no_place = code == NO_SCHEME || code == BAD_URI || code == BAD_NAME || code == NO_SERVER;
    if (!current.is_there || current.kind != HTTP) return false;
    if (code == TOO_MANY && what == 2)
        add("%s was moved more than five times, the last time by %s from %s", current.first.bytes, server.bytes, url);
    else if (code == TOO_MANY && what == 7)
        add("the head of the response of %s for %s has more than 64 fields", server.bytes, url);
    else if (code == TOO_LARGE && what == 1)
        add("%s has more than 268435456 bytes, the most of an image, as %s sends it", url, server.bytes);
    else if (code == TOO_LONG && what == 6)
        add("the head, a size line or a trailer of the response of %s for %s has more than 16384 bytes", server.bytes, url);
    else if (is_no_place && current.has_ended_well)
        add("%s has moved %s to a place that can't be asked for: %s", server.bytes, url, causes[code].meaning);
    return sentence[0];
}
static unsigned code_of(const uint8_t *cause) { return cause[0] < CAUSES ? cause[0] : UNKNOWN; }
const char *name_of_cause(const uint8_t *cause) { return causes[code_of(cause)].name; }
const char *sentence_on(const uint8_t *cause) {
    unsigned code = code_of(cause);
    uint32_t a = get32(cause + 1), b = get32(cause + 5);
    bool is_of_drive = current.is_there && !current.lives && current.kind == ISCSI;
    bool is_of_open = current.is_there && !current.lives && code >= REFUSED && code <= BROKEN;
    const char *on_drive = is_of_drive ? sentence_on_drive(server_name().bytes, code, a, b) : 0;
    sentence[0] = 0, is_of_open |= on_drive != 0;
    if (on_drive) add("%s", on_drive);
    else if (is_of_open && code == REFUSED) add_refusal(a, b);
    else if (is_of_open && code == TIMED_OUT) add_silence();
    else if (is_of_open) add_break(a);
    else if (!add_limit(code, a)) add("%s", causes[code].meaning);
    if (is_of_open) add_advice(code, b);
    return sentence;
}
