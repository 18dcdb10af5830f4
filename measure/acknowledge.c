/* A client of a bridge that only acknowledges: it speaks records as `netboot live` does, asks a TFTP server
 * for one file in blocks of 1,432 bytes, and acknowledges block after block. It checks, keeps and traces nothing,
 * and takes an OACK to grant what was asked. It ends with 0 once the last block came.
 *   acknowledge HOST PORT SERVER PATH */
#include <arpa/inet.h>
#include <netinet/tcp.h>
#include <stdint.h>
#include <stdio.h>
#include <stdlib.h>
#include <string.h>
#include <unistd.h>

enum { ETHERNET = 14, IP = 20, UDP = 8, FIRST_PORT = 49152, MOST_SECONDS = 120, ROOM = 1 << 18, LONGEST = 131072 + 4 };

static int peer;
static uint8_t mac[6], own[4], server[4], server_mac[6];
static uint16_t server_port = 69, own_port, block = 512;

static void put16(uint8_t *at, unsigned value) { at[0] = value >> 8; at[1] = value; }
static unsigned get16(const uint8_t *at) { return at[0] << 8 | at[1]; }

static uint32_t add(uint32_t sum, const uint8_t *at, size_t length) {
    for (size_t i = 0; i + 1 < length; i += 2) sum += get16(at + i);
    return length % 2 ? sum + (at[length - 1] << 8) : sum;
}

static unsigned folded(uint32_t sum) {
    while (sum >> 16) sum = (sum & 0xffff) + (sum >> 16);
    return ~sum & 0xffff;
}

static void out(const uint8_t *bytes, size_t length) {
    while (length > 0) {
        ssize_t n = write(peer, bytes, length);
        if (n <= 0) exit(2);
        bytes += n;
        length -= n;
    }
}

/* A frame as a record. */
static void send_frame(const uint8_t *frame, size_t length) {
    uint8_t record[2048] = {0};
    put16(record + 2, length + 1);
    record[4] = 0x82;
    memcpy(record + 5, frame, length);
    out(record, length + 5);
}

/* ARP (RFC 826): a request of the server's address where there is nobody to answer yet, else a reply. */
static void send_arp(const uint8_t *asking) {
    static const uint8_t fixed[] = {8, 6, 0, 1, 8, 0, 6, 4, 0};
    uint8_t frame[42] = {0};
    memset(frame, 0xff, 6);
    memcpy(frame + 6, mac, 6);
    memcpy(frame + 12, fixed, sizeof fixed);
    frame[21] = asking ? 2 : 1;
    memcpy(frame + 22, mac, 6);
    memcpy(frame + 28, own, 4);
    memcpy(frame + 38, server, 4);
    if (asking) {
        memcpy(frame, asking, 6);
        memcpy(frame + 32, asking, 6);
    }
    send_frame(frame, sizeof frame);
}

static void send_datagram(const uint8_t *body, size_t length) {
    uint8_t frame[1600] = {0}, *ip = frame + ETHERNET, *udp = ip + IP;
    memcpy(frame, server_mac, 6);
    memcpy(frame + 6, mac, 6);
    put16(frame + 12, 0x0800);
    ip[0] = 0x45;
    put16(ip + 2, IP + UDP + length);
    ip[6] = 0x40;
    ip[8] = 64;
    ip[9] = 17;
    memcpy(ip + 12, own, 4);
    memcpy(ip + 16, server, 4);
    put16(ip + 10, folded(add(0, ip, IP)));
    put16(udp, own_port);
    put16(udp + 2, server_port);
    put16(udp + 4, UDP + length);
    memcpy(udp + UDP, body, length);
    put16(udp + 6, folded(add(add(17 + UDP + length, ip + 12, 8), udp, UDP + length)));
    send_frame(frame, ETHERNET + IP + UDP + length);
}

static void request(const char *path) {
    static const char rest[] = "octet\0blksize\0" "1432\0tsize\0" "0";
    uint8_t body[600] = {0, 1};
    size_t length = strlen(path);
    if (length > 500) exit(2);
    memcpy(body + 2, path, length);
    memcpy(body + 2 + length + 1, rest, sizeof rest);
    send_datagram(body, 2 + length + 1 + sizeof rest);
}

/* 1 once the last block came. */
static int take_frame(const uint8_t *frame, size_t length, const char *path) {
    const uint8_t *ip = frame + ETHERNET, *udp = ip + IP;
    if (length >= 42 && get16(frame + 12) == 0x0806 && !memcmp(ip + 14, server, 4)) {
        if (ip[7] == 1 && !memcmp(ip + 24, own, 4)) send_arp(ip + 8);
        if (ip[7] == 2 && server_port == 69) {
            memcpy(server_mac, ip + 8, 6);
            request(path);
        }
    }
    if (length < ETHERNET + IP + UDP + 4 || get16(frame + 12) != 0x0800 || ip[9] != 17) return 0;
    unsigned opcode = get16(udp + UDP);
    if (get16(udp + 2) != own_port || (opcode != 3 && opcode != 6)) return 0;
    server_port = get16(udp);
    uint8_t body[4] = {0, 4};
    if (opcode == 3) memcpy(body + 2, udp + UDP + 2, 2);
    else block = 1432;
    send_datagram(body, sizeof body);
    return opcode == 3 && get16(udp + 4) < UDP + 4 + block;
}

static int take_record(const uint8_t *content, size_t length, const char *path) {
    static const uint8_t step[] = {0, 0, 0, 5, 0x81, 0, 0, 0, 1};
    if (content[0] == 1 && length >= 62) {
        memcpy(mac, content + 2, 6);
        own_port = FIRST_PORT + get16(content + 58);
        memcpy(own, content + 60, 4);
        out(step, sizeof step);
        send_arp(NULL);
    }
    return content[0] == 2 && take_frame(content + 1, length - 1, path);
}

int main(int count, char **words) {
    static const uint8_t done[] = {0, 0, 0, 2, 0x8d, 3};
    static uint8_t held[ROOM + LONGEST];
    struct sockaddr_in place = {.sin_family = AF_INET};
    size_t length = 0;
    int one = 1;
    alarm(MOST_SECONDS);
    if (count != 5 || inet_pton(AF_INET, words[1], &place.sin_addr) != 1) return 2;
    if (inet_pton(AF_INET, words[3], server) != 1) return 2;
    place.sin_port = htons(atoi(words[2]));
    peer = socket(AF_INET, SOCK_STREAM, 0);
    if (connect(peer, (struct sockaddr *)&place, sizeof place)) return 2;
    setsockopt(peer, IPPROTO_TCP, TCP_NODELAY, &one, sizeof one);
    for (;;) {
        ssize_t n = read(peer, held + length, ROOM);
        size_t at = 0;
        if (n <= 0) return 2;
        length += n;
        while (length - at >= 4) {
            size_t size = (size_t)get16(held + at) << 16 | get16(held + at + 2);
            if (size == 0 || size > LONGEST - 4) return 2;
            if (length - at < 4 + size) break;
            if (take_record(held + at + 4, size, words[4])) {
                out(done, sizeof done);
                shutdown(peer, SHUT_WR);
                while (read(peer, held, ROOM) > 0) {}
                return 0;
            }
            at += 4 + size;
        }
        memmove(held, held + at, length -= at);
    }
}
