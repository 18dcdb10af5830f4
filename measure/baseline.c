/*
 * The least that a boot by TFTP or HTTP takes: it checks sums and copies. The program's instructions
 * are measured against this loop's.
 *
 * It reads an input recording (docs/RECORDS.md), checks the sums of each packet, datagram and segment
 * from the server (RFC 791, RFC 768, RFC 9293), and writes what the TFTP DATA carry, one after the
 * other, or what the segments carry at their places, behind a response's head. It knows no time and no
 * answer, and of a stream no hole. A datagram without a checksum is left out.
 */

#define _GNU_SOURCE
#include <fcntl.h>
#include <stdint.h>
#include <stdlib.h>
#include <string.h>
#include <sys/stat.h>
#include <unistd.h>

enum { LENGTH_FIELD = 4, FRAME_RECORD = 2 };
enum { ETHERNET = 14, IPV4 = 20, UDP = 8, TFTP = 4, TCP = 20 };
enum { KIND_IPV4 = 0x0800, PROTOCOL_TCP = 6, PROTOCOL_UDP = 17, OPCODE_DATA = 3, SYN = 2 };

struct memory {
    uint8_t *bytes;
    size_t length, room;
    /* of a stream: the number of its first byte */
    uint32_t first;
    int is_stream;
};

static uint32_t number16(const uint8_t *at)
{
    return (uint32_t)at[0] << 8 | at[1];
}

static uint32_t number32(const uint8_t *at)
{
    return number16(at) << 16 | number16(at + 2);
}

/* The loop of RFC 1071, section 4.1: 16-bit words in the machine's own order. */
static uint32_t sum(uint32_t total, const uint8_t *bytes, size_t length)
{
    uint8_t last[] = { length % 2 ? bytes[length - 1] : 0, 0 };
    uint16_t word;
    for (size_t place = 0; place < length / 2; place++) {
        memcpy(&word, bytes + 2 * place, sizeof word);
        total += word;
    }
    memcpy(&word, last, sizeof word);
    return total + word;
}

static int is_right(uint32_t total)
{
    total = (total & 0xffff) + (total >> 16);
    total = (total & 0xffff) + (total >> 16);
    return total == 0xffff;
}

static int is_right_body(const uint8_t *packet, const uint8_t *body, size_t length)
{
    uint8_t rest[] = { 0, packet[9], length >> 8, length };
    uint32_t pseudo_header = sum(sum(0, packet + 12, 8), rest, sizeof rest);
    return is_right(sum(pseudo_header, body, length));
}

static void take_datagram(const uint8_t *packet, size_t header, size_t room, struct memory *image)
{
    const uint8_t *datagram = packet + header, *message = datagram + UDP;
    size_t length = number16(datagram + 4);
    if (length < UDP + TFTP || length > room || number16(message) != OPCODE_DATA)
        return;
    if (!is_right_body(packet, datagram, length))
        return;
    memcpy(image->bytes + image->length, message + TFTP, length - UDP - TFTP);
    image->length += length - UDP - TFTP;
}

static void take_segment(const uint8_t *packet, size_t header, size_t length, struct memory *image)
{
    const uint8_t *segment = packet + header;
    size_t head = (segment[12] >> 4) * 4;
    if (length < TCP || head < TCP || head > length || !is_right_body(packet, segment, length))
        return;
    if (segment[13] & SYN) {
        image->first = number32(segment + 4) + 1;
        image->is_stream = 1;
        return;
    }
    uint32_t place = number32(segment + 4) - image->first;
    size_t end = place + (length - head);
    if (!image->is_stream || end > image->room)
        return;
    memcpy(image->bytes + place, segment + head, length - head);
    if (end > image->length)
        image->length = end;
}

/* What stands behind a response's head. */
static struct memory body_of(struct memory image)
{
    static const char end[] = "\r\n\r\n";
    uint8_t *found = image.is_stream ? memmem(image.bytes, image.length, end, 4) : NULL;
    if (found) {
        image.length -= found + 4 - image.bytes;
        image.bytes = found + 4;
    }
    return image;
}

static void take_frame(const uint8_t *frame, size_t length, struct memory *image)
{
    const uint8_t *packet = frame + ETHERNET;
    if (length < ETHERNET + IPV4 + UDP + TFTP || number16(frame + 12) != KIND_IPV4)
        return;
    if (number32(packet + 12) != SERVER)
        return;
    size_t header = (packet[0] & 15) * 4, whole = number16(packet + 2);
    if (header < IPV4 || whole < header + UDP + TFTP || whole > length - ETHERNET)
        return;
    if (!is_right(sum(0, packet, header)))
        return;
    if (packet[9] == PROTOCOL_UDP)
        take_datagram(packet, header, whole - header, image);
    else if (packet[9] == PROTOCOL_TCP)
        take_segment(packet, header, whole - header, image);
}

static void take_records(struct memory recording, struct memory *image)
{
    const uint8_t *at = recording.bytes;
    size_t left = recording.length;
    while (left > LENGTH_FIELD) {
        size_t length = number32(at);
        if (length < 1 || length > left - LENGTH_FIELD)
            return;
        if (at[LENGTH_FIELD] == FRAME_RECORD)
            take_frame(at + LENGTH_FIELD + 1, length - 1, image);
        at += LENGTH_FIELD + length;
        left -= LENGTH_FIELD + length;
    }
}

static int read_file(const char *path, struct memory *content)
{
    struct stat about;
    int file = open(path, O_RDONLY);
    if (file < 0 || fstat(file, &about) < 0)
        return 0;
    content->length = about.st_size;
    content->bytes = malloc(content->length + 1);
    return content->bytes && read(file, content->bytes, content->length) == about.st_size;
}

static int write_file(const char *path, struct memory content)
{
    int file = open(path, O_WRONLY | O_CREAT | O_TRUNC, 0666);
    return file >= 0 && write(file, content.bytes, content.length) == (ssize_t)content.length;
}

int main(int count, char **words)
{
    struct memory recording, image = { 0 };
    if (count != 3)
        return 2;
    if (!read_file(words[1], &recording))
        return 7;
    image.bytes = malloc(recording.length + 1);
    if (!image.bytes)
        return 9;
    image.room = recording.length;
    take_records(recording, &image);
    return write_file(words[2], body_of(image)) ? 0 : 8;
}
