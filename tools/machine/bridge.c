/* Leads `netboot live 127.0.0.1:PORT` to one card of a machine without a disk, and keeps what it hands off.
 *
 *   bridge [-i CARD] [-d FOLDER] [-r FILE] [-o FILE] [-u USER] SCRIPT CLIENT
 *
 * The parts go into FOLDER (/run/netboot), the input and output recordings to -r and -o. The client runs as the user of
 * that number, with no rights. What it writes is checked first, and none of it steers a file's name or the console.
 * Ends with the run's status, with 2 for invalid words, with 100 where the bridge failed. */
#define _GNU_SOURCE
#include <arpa/inet.h>
#include <errno.h>
#include <fcntl.h>
#include <grp.h>
#include <linux/if_packet.h>
#include <net/if.h>
#include <netinet/tcp.h>
#include <poll.h>
#include <signal.h>
#include <stdarg.h>
#include <stdbool.h>
#include <stdint.h>
#include <stdio.h>
#include <stdlib.h>
#include <string.h>
#include <sys/ioctl.h>
#include <sys/mman.h>
#include <sys/prctl.h>
#include <sys/random.h>
#include <sys/stat.h>
#include <sys/syscall.h>
#include <sys/wait.h>
#include <time.h>
#include <unistd.h>
#include "console.h"
#include "records.h"

enum { TICK_MS = 50, AHEAD_MS = 200, MOST_AHEAD = 5, MOST_TICK = 60000, CLIENT_MS = 30000, OFF_MS = 800,
       FAILED = 100, USAGE = 2, UNFINISHED = 5, EVERY = 0x0003, ETHERNET = 1, MOST_WAITING = 4 << 20,
       START_BYTES = 75, MIN_ON_WIRE = 60, AT_ONCE = 1 << 16, MOST_SENT = 8 };
/* The card's frames come into a ring of these slots, which the system shares with this program (packet(7)). */
enum { SLOT = 2048, SLOTS = 2048, RING_BLOCK = 1 << 16,
       SLOT_HEAD = (sizeof(struct tpacket2_hdr) + TPACKET_ALIGNMENT - 1) / TPACKET_ALIGNMENT * TPACKET_ALIGNMENT };

/* The least and the most bytes of each record's body, from STEP on. */
static const uint32_t SIZES[][2] = {{4, 4}, {MIN_FRAME, MAX_FRAME}, {0, 4160}, {8, MOST_RECORD - 1}, {9, 9}, {11, 11},
    {13, 13 + 65535}, {3, 3}, {6, 6}, {11, 11}, {28, 28}, {7, 7 + PIECE}, {1, 1}};

static struct file { const char *path; FILE *stream; char *room; } record, output;
static const char *device = "eth0", *folder = "/run/netboot", *script, *program;
static struct { unsigned received, sent, lost, unsent, joined; } counts;
static struct { uint8_t bytes[2 * MOST_WAITING + MOST_RECORD + 4]; size_t from, to; } waiting; /* for the client */
static struct { uint8_t bytes[4 * MOST_RECORD]; size_t size; uint64_t passed; } held; /* of the client */
/* Frames of the client, which lie in held. */
static struct { struct mmsghdr all[MOST_SENT]; struct iovec parts[MOST_SENT][2]; unsigned count; } outgoing;
static struct { uint8_t *slots; unsigned next; } ring;
static struct { bool is_begun, is_full; unsigned kind, index; uint32_t length; struct file file; } last; /* the part */
static struct { uint64_t tick, off; } times;
static int card = -1, client = -1, status = -1;
static pid_t child;
static uid_t user; /* the client's, where it is another */
static uint8_t mac[6];
static uint32_t number, step; /* of the record given last, and of the one that the client is at */
static bool has_left; /* the client */
static volatile sig_atomic_t wants_off;

/* ---- failures ---- */
static _Noreturn void leave(int with) {
    if (child > 0) kill(child, SIGKILL), waitpid(child, 0, 0);
    exit(with);
}
static _Noreturn void fail(const char *what) {
    say("bridge: %s: %s", what, strerror(errno));
    leave(FAILED);
}
static _Noreturn void refuse(const char *why) {
    say("bridge: the client's output is refused at byte %llu: %s", (unsigned long long)held.passed, why);
    leave(FAILED);
}

/* ---- numbers and files ---- */
static void put16(uint8_t *p, unsigned n) { p[0] = (uint8_t)(n >> 8), p[1] = (uint8_t)n; }
static void put32(uint8_t *p, uint32_t n) { put16(p, n >> 16), put16(p + 2, n & 0xffff); }

static struct file opened(const char *path, const char *how) {
    struct file file = {path, path ? fopen(path, how) : 0, path ? malloc(AT_ONCE) : 0};
    if (path && !file.stream) fail(path);
    if (file.room) setvbuf(file.stream, file.room, _IOFBF, AT_ONCE);
    return file;
}
static void keep(struct file file, const void *bytes, size_t size) {
    if (file.stream && size && fwrite(bytes, size, 1, file.stream) != 1) fail(file.path);
}
static void close_file(struct file *file) {
    FILE *stream = file->stream;
    if (file->stream = 0, stream && fclose(stream)) fail(file->path);
    free(file->room), file->room = 0;
}
static const char *in_folder(const char *name) {
    static char path[256];
    size_t size = (size_t)snprintf(path, sizeof path, "%s/%s", folder, name);
    if (size >= sizeof path) errno = ENAMETOOLONG, fail(folder);
    return path;
}

/* ---- the card ---- */
static void bring_up(int asking, const char *name) {
    struct ifreq about = {0};
    memcpy(about.ifr_name, name, strnlen(name, IFNAMSIZ - 1));
    if (ioctl(asking, SIOCGIFFLAGS, &about)) fail(name);
    about.ifr_flags = (short)(about.ifr_flags | IFF_UP);
    if (ioctl(asking, SIOCSIFFLAGS, &about)) fail(name);
}
static void share_ring(void) {
    int version = TPACKET_V2;
    struct tpacket_req wanted = {RING_BLOCK, SLOTS * SLOT / RING_BLOCK, SLOT, SLOTS};
    if (setsockopt(card, SOL_PACKET, PACKET_VERSION, &version, sizeof version)) fail(device);
    if (setsockopt(card, SOL_PACKET, PACKET_RX_RING, &wanted, sizeof wanted)) fail(device);
    ring.slots = mmap(0, (size_t)SLOTS * SLOT, PROT_READ | PROT_WRITE, MAP_SHARED, card, 0);
    if (ring.slots == MAP_FAILED) fail(device);
}
static void open_card(void) {
    int asking = socket(AF_INET, SOCK_DGRAM | SOCK_CLOEXEC, 0), one = 1;
    bring_up(asking, "lo"), bring_up(asking, device);
    struct ifreq about = {0};
    memcpy(about.ifr_name, device, strnlen(device, IFNAMSIZ - 1));
    if (ioctl(asking, SIOCGIFHWADDR, &about)) fail(device);
    if (about.ifr_hwaddr.sa_family != ETHERNET) errno = EPFNOSUPPORT, fail(device);
    memcpy(mac, about.ifr_hwaddr.sa_data, sizeof mac);
    if (ioctl(asking, SIOCGIFINDEX, &about)) fail(device);
    close(asking);
    int index = about.ifr_ifindex;
    struct sockaddr_ll place = {.sll_family = AF_PACKET, .sll_protocol = htons(EVERY), .sll_ifindex = index};
    struct packet_mreq every = {.mr_ifindex = index, .mr_type = PACKET_MR_PROMISC};
    if ((card = socket(AF_PACKET, SOCK_RAW | SOCK_NONBLOCK | SOCK_CLOEXEC, 0)) < 0) fail(device);
    share_ring();
    setsockopt(card, SOL_PACKET, PACKET_IGNORE_OUTGOING, &one, sizeof one);
    if (bind(card, (void *)&place, sizeof place)) fail(device);
    setsockopt(card, SOL_PACKET, PACKET_ADD_MEMBERSHIP, &every, sizeof every);
}
/* The sum of 16-bit words, which may be added as longer ones are (RFC 1071, section 2). */
static uint32_t sum(const uint8_t *p, size_t n, uint32_t before) {
    uint64_t all = htonl(before);
    uint32_t word;
    for (; n >= sizeof word; p += sizeof word, n -= sizeof word) memcpy(&word, p, sizeof word), all += word;
    for (word = 0, memcpy(&word, p, n), all += word; all >> 32;) all = (all & UINT32_MAX) + (all >> 32);
    for (word = ntohl((uint32_t)all); word >> 16;) word = (word & 0xffff) + (word >> 16);
    return word;
}
/* Fills in the checksums that a sender on this machine left to a card that isn't there (RFC 1071). */
static void complete(uint8_t *f, size_t size) {
    if (size < 34 || get16(f + 12) != IPV4 || f[14] >> 4 != 4) return;
    size_t head = (f[14] & 15u) * 4, total = get16(f + 16), at = f[23] == UDP ? 6 : 16;
    if (head < 20 || head > total || total > size - 14) return;
    put16(f + 24, 0), put16(f + 24, ~sum(f + 14, head, 0) & 0xffff);
    uint8_t *body = f + 14 + head;
    size_t length = total - head;
    if ((f[23] != UDP && f[23] != TCP) || get16(f + 20) & 0x3fff || length < at + 2) return;
    if (f[23] == UDP && (get16(body + 4) < 8 || get16(body + 4) > length)) return;
    if (f[23] == UDP) length = get16(body + 4);
    put16(body + at, 0);
    uint32_t left = ~sum(body, length, sum(f + 26, 8, (uint32_t)(f[23] + length))) & 0xffff;
    put16(body + at, left ? left : 0xffff);
}

/* ---- to the client ---- */
static void flush_waiting(void) {
    size_t size = waiting.to - waiting.from;
    ssize_t n = size ? send(client, waiting.bytes + waiting.from, size, MSG_DONTWAIT | MSG_NOSIGNAL) : 0;
    if (n > 0) waiting.from += (size_t)n;
    bool has_gone = n < 0 && errno != EAGAIN && errno != EINTR;
    if (has_gone || waiting.from == waiting.to) waiting.from = waiting.to = 0;
}
/* There is room: frames end at MOST_WAITING, and TICKs at MOST_AHEAD. */
static void put(enum type type, const uint8_t *body, size_t size) {
    size_t waits = waiting.to - waiting.from;
    if (waiting.to > 2 * MOST_WAITING)
        memmove(waiting.bytes, waiting.bytes + waiting.from, waits), waiting.from = 0, waiting.to = waits;
    uint8_t *at = waiting.bytes + waiting.to;
    put32(at, (uint32_t)size + 1), at[4] = (uint8_t)type;
    if (size) memcpy(at + 5, body, size);
    keep(record, at, size + 5);
    waiting.to += size + 5, number++;
    see_input(number, type, body, size);
}
static void take_frame(uint8_t *f, size_t size, unsigned notes) {
    if (size < 12 || notes & TP_STATUS_VLAN_VALID || !memcmp(f + 6, mac, 6)) return;
    if (memcmp(f, mac, 6) && !(f[0] & 1)) return;
    if (notes & TP_STATUS_CSUMNOTREADY) complete(f, size);
    if (size < MIN_FRAME || size > MAX_FRAME) counts.joined++;
    else if (waiting.to - waiting.from > MOST_WAITING) counts.lost++;
    else counts.received++, put(FRAME, f, size);
}
/* Takes the frames that are there, as far as the client reads them at once; whether there were any. */
static bool take_frames(void) {
    unsigned taken = 0;
    for (size_t end = waiting.to + AT_ONCE; taken < SLOTS && waiting.to < end; taken++) {
        uint8_t *slot = ring.slots + (size_t)ring.next * SLOT;
        struct tpacket2_hdr *about = (void *)slot;
        struct sockaddr_ll *from = (void *)(slot + SLOT_HEAD);
        uint32_t notes = __atomic_load_n(&about->tp_status, __ATOMIC_ACQUIRE);
        if (!(notes & TP_STATUS_USER)) break;
        size_t size = about->tp_mac + about->tp_snaplen > SLOT ? 0 : about->tp_snaplen;
        if (size < about->tp_len) notes &= ~(uint32_t)TP_STATUS_CSUMNOTREADY, size = size < 12 ? 0 : about->tp_len;
        if (from->sll_pkttype != PACKET_OUTGOING) take_frame(slot + about->tp_mac, size, notes);
        __atomic_store_n(&about->tp_status, TP_STATUS_KERNEL, __ATOMIC_RELEASE);
        ring.next = (ring.next + 1) % SLOTS;
    }
    return taken > 0;
}
/* The machine's own UUID as its firmware says it; one is drawn where it says none. */
static void find_uuid(uint8_t uuid[16]) {
    unsigned b[16], found = 0;
    FILE *own = fopen("/sys/class/dmi/id/product_uuid", "re");
    for (; own && found < 16 && fscanf(own, "%2x%*[-]", b + found) >= 1; found++) uuid[found] = (uint8_t)b[found];
    if (own) fclose(own);
    if (found < 16 && getrandom(uuid, 16, 0) != 16) fail("getrandom");
}
static void start(void) {
    static uint8_t s[START_BYTES + MOST_SCRIPT + 1] = {1}; /* version 1; arch 0, as kexec starts no EFI program */
    int file = open(script, O_RDONLY | O_CLOEXEC);
    ssize_t n = file < 0 ? -1 : read(file, s + START_BYTES, MOST_SCRIPT + 1);
    if (n < 0 || n > MOST_SCRIPT) errno = n < 0 ? errno : EFBIG, fail(script);
    close(file);
    memcpy(s + 1, mac, sizeof mac), find_uuid(s + 7);
    if (getrandom(s + 23, 32, 0) != 32 || getrandom(s + 57, 2, 0) != 2) fail("getrandom");
    s[57] &= 0x3f;
    put(START, s, START_BYTES + (size_t)n);
    say("%s: %02x:%02x:%02x:%02x:%02x:%02x", device, mac[0], mac[1], mac[2], mac[3], mac[4], mac[5]);
    char uuid[40] = "", key[65] = "";
    for (int i = 0, at = 0; i < 16; i++)
        at += sprintf(uuid + at, "%s%02x", i == 4 || i == 6 || i == 8 || i == 10 ? "-" : "", s[7 + i]);
    for (int i = 0; i < 32; i++) sprintf(key + 2 * i, "%02x", s[23 + i]);
    say("bridge: this run: --w %u --uuid %s --key %s", get16(s + 57), uuid, key);
}

/* ---- from the client ---- */
/* Whether these texts, each after its length, fill the rest of a body. */
static bool is_filled(const uint8_t *body, size_t size, size_t at, unsigned texts) {
    for (; texts; at += 2 + get16(body + at), texts--)
        if (size - at < 2 || size - at - 2 < get16(body + at)) return false;
    return at == size;
}
static bool is_handed_off(void) { return last.is_begun && memchr("\1\2\3\4", (int)last.kind, 4); }
static void check(unsigned type, const uint8_t *body, size_t size) {
    if (type < STEP || type > DONE) refuse("no record of an output has that type");
    if (size < SIZES[type - STEP][0] || size > SIZES[type - STEP][1]) refuse("the record has another length");
    if (status >= 0) refuse("a record after DONE");
    if (type == STEP && (get32(body) != step + 1 || step == number)) refuse("a STEP that isn't the next one");
    if (type != STEP && type != DONE && !step) refuse("a record before the first STEP");
    if (type == COMMAND && !(body[7] && is_filled(body, size, 8, body[7]))) refuse("its words don't fill the COMMAND");
    if (type == OPEN && !is_filled(body, size, 11, 1)) refuse("its target doesn't fill the OPEN");
    if (last.is_begun && type != PART && type != DONE) refuse("a record between the parts");
    if (type == DONE && !memchr("\0\3\4\5\6\13", body[0], 6)) refuse("a DONE of no status");
    if (type == DONE && !body[0] != is_handed_off()) refuse("DONE 0 without all parts, or parts without it");
}
/* Which kinds of part may follow each, or begin; an initrd has its name's index, and each name the next one. */
static bool may_follow(unsigned kind, unsigned index) {
    static const char *const next[KINDS + 1] = {"C", "iT", "iT", "", "T", "K", "I", "kS"};
    unsigned wanted = kind == INITRD ? last.index : kind == INITRD_NAME && last.kind == INITRD ? last.index + 1 : 0;
    return strchr(next[last.is_begun ? last.kind : KINDS], "KICTSki"[kind]) && index == wanted;
}
/* A part's file is named by its kind alone; all initrds are one file, each at a multiple of 4, and names have none. */
static void begin_part(unsigned kind, unsigned index) {
    static const char *const names[KINDS] = {"kernel", "initrd", "command-line", "table", "sector"};
    if (!may_follow(kind, index)) refuse("a PART that doesn't follow the one before it");
    close_file(&last.file);
    last.is_begun = true, last.kind = kind, last.index = index, last.length = 0;
    last.file = opened(names[kind] ? in_folder(names[kind]) : 0, kind == INITRD && index ? "ae" : "wxe");
    if (!last.file.stream) return;
    long size = fseek(last.file.stream, 0, SEEK_END) ? -1 : ftell(last.file.stream);
    if (size < 0) fail(last.file.path);
    keep(last.file, "\0\0\0", (size_t)(-size & 3));
}
static void take_part(const uint8_t *body, size_t size) {
    unsigned kind = body[0], index = get16(body + 1), offset = get32(body + 3);
    if (kind >= KINDS) refuse("a PART of no kind");
    bool goes_on = last.is_begun && kind == last.kind && index == last.index;
    if (!goes_on && offset == 0) begin_part(kind, index);
    else if (!goes_on || offset != last.length || !last.is_full) refuse("a PART that doesn't begin where it should");
    if (kind == SECTOR && size - 7 != SECTOR_BYTES) refuse("a sector of another length");
    if (size - 7 > UINT32_MAX - last.length) refuse("a PART of more bytes than can be counted");
    keep(last.file, body + 7, size - 7);
    last.length += (uint32_t)(size - 7), last.is_full = size - 7 == PIECE;
}
/* Sends the frames that wait in held; one that can't be sent is left out. What comes meanwhile is passed on at once, so
 * that the client works on it while more is sent. */
static void send_frames(void) {
    for (unsigned at = 0; at < outgoing.count;) {
        long n = syscall(SYS_sendmmsg, card, outgoing.all + at, outgoing.count - at, 0); /* musl's own sends one by one */
        if (n <= 0) counts.unsent++, at++;
        else counts.sent += (unsigned)n, at += (unsigned)n;
    }
    outgoing.count = 0;
    if (!times.off && take_frames()) flush_waiting();
}
static void send_frame(uint8_t *body, size_t size) {
    static uint8_t zeros[MIN_ON_WIRE];
    struct iovec *parts = outgoing.parts[outgoing.count];
    parts[0] = (struct iovec){body, size}, parts[1] = (struct iovec){zeros, size < MIN_ON_WIRE ? MIN_ON_WIRE - size : 0};
    outgoing.all[outgoing.count++].msg_hdr = (struct msghdr){.msg_iov = parts, .msg_iovlen = 2};
    if (outgoing.count == MOST_SENT) send_frames();
}
static void take(enum type type, uint8_t *body, size_t size) {
    if (type == STEP) step = get32(body);
    if (type == SENT) send_frame(body, size);
    see_output(type, body, size, device);
    if (type == PART) take_part(body, size);
    if (type == DONE) status = body[0];
}
/* Takes what the client wrote, if anything: the number of bytes. */
static size_t take_output(void) {
    ssize_t n = recv(client, held.bytes + held.size, sizeof held.bytes - held.size, MSG_DONTWAIT);
    if (n < 0 && (errno == EAGAIN || errno == EINTR)) return 0;
    if (n <= 0 && held.size) refuse("it ends inside a record");
    if (n <= 0) return has_left = true, 0;
    size_t at = 0, size = 0;
    held.size += (size_t)n;
    for (; held.size - at >= 5; at += 4 + size, held.passed += 4 + size) {
        size = get32(held.bytes + at);
        if (!size || size > MOST_RECORD) refuse("the length is no record's");
        if (held.size - at < 4 + size) break;
        check((enum type)held.bytes[at + 4], held.bytes + at + 5, size - 1);
        take((enum type)held.bytes[at + 4], held.bytes + at + 5, size - 1);
        keep(output, held.bytes + at, 4 + size);
    }
    send_frames();
    memmove(held.bytes, held.bytes + at, held.size -= at);
    return (size_t)n;
}

/* ---- the run ---- */
static void run_client(void) {
    struct sockaddr_in place = {.sin_family = AF_INET, .sin_addr.s_addr = htonl(INADDR_LOOPBACK)};
    socklen_t size = sizeof place;
    int one = 1, listener = socket(AF_INET, SOCK_STREAM | SOCK_CLOEXEC, 0);
    bool is_listening = !bind(listener, (void *)&place, size) && !listen(listener, 1);
    if (!is_listening || getsockname(listener, (void *)&place, &size)) fail("listening");
    char peer[32];
    snprintf(peer, sizeof peer, "127.0.0.1:%u", ntohs(place.sin_port));
    if ((child = fork()) < 0) fail("fork");
    if (!child && user && (setgroups(0, 0) || setgid(user) || setuid(user))) _exit(126);
    if (!child) prctl(PR_SET_NO_NEW_PRIVS, 1, 0, 0, 0), execl(program, program, "live", peer, (char *)0), _exit(127);
    struct pollfd coming = {listener, POLLIN, 0};
    if (poll(&coming, 1, CLIENT_MS) != 1) errno = ETIMEDOUT, fail(program);
    if ((client = accept4(listener, 0, 0, SOCK_CLOEXEC)) < 0) fail(program);
    close(listener), setsockopt(client, IPPROTO_TCP, TCP_NODELAY, &one, sizeof one);
}
/* A TICK for the time that passed, and OFF where that is wanted; a client that has enough to do gets no more time. */
static void pass_time(void) {
    uint64_t now = now_ms(), passed = now - times.tick < MOST_TICK ? now - times.tick : MOST_TICK;
    uint32_t ahead = number - step;
    if (times.off) return;
    if (passed >= TICK_MS && ahead <= MOST_AHEAD && (ahead < 2 || passed >= AHEAD_MS)) {
        uint8_t body[2];
        put16(body, (unsigned)passed), times.tick += passed;
        put(TICK, body, sizeof body);
    }
    if (wants_off) times.off = now, put(OFF, 0, 0);
}
/* Waits for a frame, for the client, or for the next TICK. */
static void wait_for_more(void) {
    short wanted = (short)(POLLIN | (waiting.to > waiting.from ? POLLOUT : 0));
    struct pollfd ready[] = {{client, wanted, 0}, {card, POLLIN, 0}};
    uint64_t passed = now_ms() - times.tick;
    poll(ready, times.off ? 1 : 2, passed < TICK_MS ? (int)(TICK_MS - passed) : number != step ? 10 : 0);
    int error = 0;
    socklen_t size = sizeof error;
    bool is_wrong = ready[1].revents & POLLERR && !getsockopt(card, SOL_SOCKET, SO_ERROR, &error, &size);
    if (is_wrong && error) errno = error, fail(device);
}
static void play(void) {
    times.tick = now_ms();
    while (status < 0 && !has_left && !(times.off && now_ms() - times.off > OFF_MS)) {
        pass_time();
        bool has_come = !times.off && take_frames();
        flush_waiting();
        if (!take_output() && !has_come) wait_for_more();
    }
}
static void switch_off(int signal) { wants_off = signal; }
int main(int count, char **words) {
    const struct sigaction off = {.sa_handler = switch_off};
    for (int c; (c = getopt(count, words, "i:d:r:o:u:")) != -1;)
        if (c == '?' || (c == 'u' && !(user = (uid_t)strtoul(optarg, 0, 10)))) return USAGE;
        else if (c == 'r' || c == 'o') *(c == 'r' ? &record : &output) = opened(optarg, "we");
        else if (c != 'u') *(c == 'i' ? &device : &folder) = optarg;
    if (optind + 2 != count || strlen(device) >= IFNAMSIZ) return USAGE;
    script = words[optind], program = words[optind + 1];
    sigaction(SIGINT, &off, 0), sigaction(SIGTERM, &off, 0);
    if (mkdir(folder, 0700) && errno != EEXIST) fail(folder);
    open_card(), run_client(), start(), play();
    struct tpacket_stats seen = {0};
    socklen_t size = sizeof seen;
    if (!getsockopt(card, SOL_PACKET, PACKET_STATISTICS, &seen, &size)) counts.lost += seen.tp_drops;
    say("bridge: %u frames received, %u sent, %u not; %u came too fast, %u were joined to over %d bytes and left out",
        counts.received, counts.sent, counts.unsent, counts.lost, counts.joined, MAX_FRAME);
    if (status < 0) say("bridge: the client %s", times.off ? "didn't end, and is ended" : "left before DONE");
    close_file(&last.file), close_file(&record), close_file(&output);
    leave(status >= 0 ? status : times.off ? UNFINISHED : FAILED);
}
