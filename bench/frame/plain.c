/* The yardstick: frames by one table of the check sequence, octet by octet, as PPP drivers do (RFC 1662 appendix C). The words
   are the work (none, encode or feed), the map, what the information is (random or zeros), its octets, and how many times. */
#include <stdint.h>
#include <stdio.h>
#include <stdlib.h>
#include <string.h>

enum { FLAG = 0x7e, ESCAPE = 0x7d, LIMIT = 8200, FRAMES = 64 };

static uint16_t table[256];
static uint32_t map;

static void make_table(void) {
    for (unsigned i = 0; i < 256; i++) {
        unsigned v = i;
        for (int k = 0; k < 8; k++) v = v & 1 ? v >> 1 ^ 0x8408 : v >> 1;
        table[i] = v;
    }
}

static inline uint8_t *put(uint8_t *out, uint8_t x) {
    if (x == FLAG || x == ESCAPE || (x < 0x20 && map >> x & 1)) {
        *out++ = ESCAPE;
        x ^= 0x20;
    }
    *out++ = x;
    return out;
}

static inline uint16_t step(uint16_t fcs, uint8_t x) { return fcs >> 8 ^ table[(fcs ^ x) & 0xff]; }

__attribute__((noinline)) static size_t encode(uint8_t *out, uint16_t protocol, const uint8_t *info, size_t size) {
    uint8_t head[4] = {0xff, 0x03, protocol >> 8, protocol & 0xff};
    uint8_t *at = out;
    uint16_t fcs = 0xffff;
    *at++ = FLAG;
    for (size_t i = 0; i < 4; i++) fcs = step(fcs, head[i]), at = put(at, head[i]);
    for (size_t i = 0; i < size; i++) fcs = step(fcs, info[i]), at = put(at, info[i]);
    fcs ^= 0xffff;
    at = put(at, fcs & 0xff);
    at = put(at, fcs >> 8);
    *at++ = FLAG;
    return at - out;
}

static uint8_t held[LIMIT];
static size_t count;
static int escaped, past;
static uint16_t running = 0xffff;

/* The number of frames that ended in the piece. */
__attribute__((noinline)) static size_t feed(const uint8_t *piece, size_t size) {
    size_t frames = 0;
    for (size_t i = 0; i < size; i++) {
        uint8_t x = piece[i];
        if (x == FLAG) {
            if (!escaped && !past && count >= 6 && running == 0xf0b8 && held[0] == 0xff && held[1] == 0x03) frames++;
            count = 0, escaped = past = 0, running = 0xffff;
        } else if (x == ESCAPE && !escaped) {
            escaped = 1;
        } else {
            if (escaped) x ^= 0x20, escaped = 0;
            if (count == LIMIT) past = 1;
            else held[count++] = x, running = step(running, x);
        }
    }
    return frames;
}

int main(int n, char **words) {
    if (n != 6) return 9;
    map = strtoul(words[2], NULL, 10);
    size_t size = strtoul(words[4], NULL, 10), times = strtoul(words[5], NULL, 10);
    int zeros = words[3][0] == 'z';
    uint8_t *infos = malloc(FRAMES * size), *frame = malloc(2 * size + 32), *stream = malloc(FRAMES * (2 * size + 32));
    uint32_t seed = 1;
    make_table();
    for (size_t i = 0; i < FRAMES * size; i++) {
        seed = seed * 1664525 + 1013904223;
        infos[i] = zeros ? 0 : seed >> 24;
    }
    size_t end = 0, seen = 0;
    for (size_t i = 0; i < FRAMES; i++) end += encode(stream + end, 0xc021, infos + i * size, size);
    if (words[1][0] == 'e')
        for (size_t k = 0; k < times; k++)
            for (size_t i = 0; i < FRAMES; i++) seen += encode(frame, 0xc021, infos + i * size, size);
    if (words[1][0] == 'f')
        for (size_t k = 0; k < times; k++) seen += feed(stream, end);
    printf("%zu\n", seen);
    return 0;
}
