/* What a frame carries: an IPv4 packet that is whole, a datagram, an option of a DHCP message. */
#ifndef PACKETS_H
#define PACKETS_H

#include <stdbool.h>
#include <stddef.h>
#include "records.h"

enum { DHCP_OPTIONS = 240, PAD = 0, END = 255 };

struct datagram { const uint8_t *bytes; size_t size; const uint8_t *source; unsigned from, to; };

/* The body of a packet of this protocol, of at least eight bytes, or null. */
static inline const uint8_t *packet_body(unsigned protocol, const uint8_t *f, size_t size, size_t *length) {
    if (size < 34 || get16(f + 12) != IPV4 || f[14] >> 4 != 4 || f[23] != protocol) return 0;
    size_t head = (f[14] & 15u) * 4, total = get16(f + 16);
    bool is_part = get16(f + 20) & 0x3fff;
    if (is_part || head < 20 || total > size - 14 || total < head + 8) return 0;
    *length = total - head;
    return f + 14 + head;
}
static inline bool read_datagram(const uint8_t *f, size_t size, struct datagram *read) {
    size_t length = 0;
    const uint8_t *udp = packet_body(UDP, f, size, &length);
    if (!udp || get16(udp + 4) < 8 || get16(udp + 4) > length) return false;
    *read = (struct datagram){udp + 8, get16(udp + 4) - 8u, f + 26, get16(udp), get16(udp + 2)};
    return true;
}
/* An option of a DHCP message (RFC 2132), where it has at least so many bytes, or null. */
static inline const uint8_t *option(const struct datagram *of, unsigned tag, size_t least, size_t *size) {
    size_t at = DHCP_OPTIONS;
    while (at + 2 <= of->size && of->bytes[at] != END) {
        if (of->bytes[at] == PAD) { at++; continue; }
        size_t length = of->bytes[at + 1];
        if (length > of->size - at - 2) return 0;
        if (of->bytes[at] == tag) return *size = length, length >= least ? of->bytes + at + 2 : 0;
        at += 2 + length;
    }
    return 0;
}

#endif
