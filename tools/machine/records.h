/* The numbers of records (docs/RECORDS.md). */
#ifndef RECORDS_H
#define RECORDS_H

#include <stdint.h>

enum { MOST_RECORD = 131072, MOST_SCRIPT = 130996, PIECE = 65536, SECTOR_BYTES = 512, MIN_FRAME = 14, MAX_FRAME = 1522 };
enum { IPV4 = 0x800, ARP = 0x806, UDP = 17, TCP = 6 };
enum type { START = 1, FRAME, TICK, OFF, STEP = 0x81, SENT, TEXT, COMMAND, RESULT, SCRIPT, OPEN, TRY, ADVANCE, ENDED,
            GRAPH, PART, DONE };
enum { TFTP = 1, HTTP, ISCSI, DNS, DHCP, PING, OPENS }; /* kinds of open */
enum kind { KERNEL, INITRD, COMMAND_LINE, TABLE, SECTOR, KERNEL_NAME, INITRD_NAME, KINDS };

static inline unsigned get16(const uint8_t *p) { return (unsigned)p[0] << 8 | p[1]; }
static inline uint32_t get32(const uint8_t *p) { return (uint32_t)get16(p) << 16 | get16(p + 2); }

#endif
