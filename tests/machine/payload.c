/* A kernel that says what it was started with, on the first serial port: the SHA-256 of its own bytes as they were loaded
 * and of its initrd, and its command line. Then it has the machine started anew.
 *
 * It is entered as a Linux kernel of 64 bits is (the Linux/x86 boot protocol), with the boot parameters in rsi; the
 * header before it is the test's. SHA-256 is FIPS 180-4's. */
#include <stddef.h>
#include <stdint.h>

enum { PORT = 0x3f8, LINE_STATUS = PORT + 5, IS_EMPTY = 0x20, KEYBOARD = 0x64, RESET = 0xfe,
       INITRD = 0x218, INITRD_SIZE = 0x21c, COMMAND_LINE = 0x228, BLOCK = 64 };

extern const uint8_t payload_begin[], payload_end[];
__attribute__((used)) static uint8_t stack[8192];

__asm__(".section .head, \"ax\"\n"
        ".globl enter\n"
        "enter: cli\n lea stack + 8192(%rip), %rsp\n mov %rsi, %rdi\n call say_all\n"
        "1: hlt\n jmp 1b\n");

static const uint32_t K[64] = {
    0x428a2f98, 0x71374491, 0xb5c0fbcf, 0xe9b5dba5, 0x3956c25b, 0x59f111f1, 0x923f82a4, 0xab1c5ed5, 0xd807aa98, 0x12835b01,
    0x243185be, 0x550c7dc3, 0x72be5d74, 0x80deb1fe, 0x9bdc06a7, 0xc19bf174, 0xe49b69c1, 0xefbe4786, 0x0fc19dc6, 0x240ca1cc,
    0x2de92c6f, 0x4a7484aa, 0x5cb0a9dc, 0x76f988da, 0x983e5152, 0xa831c66d, 0xb00327c8, 0xbf597fc7, 0xc6e00bf3, 0xd5a79147,
    0x06ca6351, 0x14292967, 0x27b70a85, 0x2e1b2138, 0x4d2c6dfc, 0x53380d13, 0x650a7354, 0x766a0abb, 0x81c2c92e, 0x92722c85,
    0xa2bfe8a1, 0xa81a664b, 0xc24b8b70, 0xc76c51a3, 0xd192e819, 0xd6990624, 0xf40e3585, 0x106aa070, 0x19a4c116, 0x1e376c08,
    0x2748774c, 0x34b0bcb5, 0x391c0cb3, 0x4ed8aa4a, 0x5b9cca4f, 0x682e6ff3, 0x748f82ee, 0x78a5636f, 0x84c87814, 0x8cc70208,
    0x90befffa, 0xa4506ceb, 0xbef9a3f7, 0xc67178f2};

static void out(uint16_t port, uint8_t value) { __asm__ volatile("outb %0, %1" : : "a"(value), "Nd"(port)); }
static uint8_t in(uint16_t port) {
    uint8_t value;
    __asm__ volatile("inb %1, %0" : "=a"(value) : "Nd"(port));
    return value;
}
static void put(uint8_t byte) {
    while (!(in(LINE_STATUS) & IS_EMPTY)) {}
    out(PORT, byte);
}
static void say(const char *text) {
    for (; *text; text++) put((uint8_t)*text);
}
static uint32_t turned(uint32_t word, int bits) { return word >> bits | word << (32 - bits); }

static void add_block(uint32_t sum[8], const uint8_t *bytes) {
    uint32_t w[64], v[8];
    for (int i = 0; i < 16; i++) {
        const uint8_t *p = bytes + 4 * i;
        w[i] = (uint32_t)p[0] << 24 | (uint32_t)p[1] << 16 | (uint32_t)p[2] << 8 | p[3];
    }
    for (int i = 16; i < 64; i++) {
        uint32_t a = turned(w[i - 15], 7) ^ turned(w[i - 15], 18) ^ w[i - 15] >> 3;
        uint32_t b = turned(w[i - 2], 17) ^ turned(w[i - 2], 19) ^ w[i - 2] >> 10;
        w[i] = w[i - 16] + a + w[i - 7] + b;
    }
    for (int i = 0; i < 8; i++) v[i] = sum[i];
    for (int i = 0; i < 64; i++) {
        uint32_t a = turned(v[4], 6) ^ turned(v[4], 11) ^ turned(v[4], 25), b = (v[4] & v[5]) ^ (~v[4] & v[6]);
        uint32_t first = v[7] + a + b + K[i] + w[i];
        uint32_t c = turned(v[0], 2) ^ turned(v[0], 13) ^ turned(v[0], 22);
        uint32_t second = c + ((v[0] & v[1]) ^ (v[0] & v[2]) ^ (v[1] & v[2]));
        for (int k = 7; k > 0; k--) v[k] = v[k - 1];
        v[4] += first, v[0] = first + second;
    }
    for (int i = 0; i < 8; i++) sum[i] += v[i];
}
static void say_sum(const char *what, const uint8_t *bytes, uint64_t size) {
    uint32_t sum[8] = {0x6a09e667, 0xbb67ae85, 0x3c6ef372, 0xa54ff53a, 0x510e527f, 0x9b05688c, 0x1f83d9ab, 0x5be0cd19};
    uint8_t last[2 * BLOCK];
    uint64_t at = 0;
    for (; size - at >= BLOCK; at += BLOCK) add_block(sum, bytes + at);
    size_t left = (size_t)(size - at), end = left < 56 ? BLOCK : 2 * BLOCK;
    for (size_t i = 0; i < end; i++) last[i] = i < left ? bytes[at + i] : i == left ? 0x80 : 0;
    for (size_t i = 0; i < 8; i++) last[end - 1 - i] = (uint8_t)(size * 8 >> 8 * i);
    for (size_t i = 0; i < end; i += BLOCK) add_block(sum, last + i);
    say(what);
    for (int i = 0; i < 64; i++) put((uint8_t) "0123456789abcdef"[sum[i / 8] >> (28 - 4 * (i % 8)) & 15]);
    say("\r\n");
}
static uint32_t number(const uint8_t *at) { return *(const uint32_t *)at; }

__attribute__((used)) void say_all(const uint8_t *parameters) {
    say("\r\n");
    say_sum("payload: own sha256 ", payload_begin, (uint64_t)(payload_end - payload_begin));
    say_sum("payload: initrd sha256 ", (const uint8_t *)(uintptr_t)number(parameters + INITRD), number(parameters + INITRD_SIZE));
    say("payload: command line "), say((const char *)(uintptr_t)number(parameters + COMMAND_LINE)), say("\r\n");
    out(KEYBOARD, RESET);
}
