// AES by tables of columns, one block after the other under CBC, for bench/aes.py: what gcc makes of it.
#include <stddef.h>
#include <stdint.h>
#include <string.h>

static uint8_t sbox[256];
static uint32_t row[4][256];

static uint8_t times_x(uint8_t a) { return (uint8_t)(a << 1 ^ (a >> 7) * 0x1b); }

static uint8_t turned(uint8_t a, int n) { return (uint8_t)(a << n | a >> (8 - n)); }

// The S-box and the tables, from the powers of 3 and their inverses.
static void make_tables(void) {
    uint8_t p = 1, q = 1;
    do {
        p ^= times_x(p);
        q ^= (uint8_t)(q << 1);
        q ^= (uint8_t)(q << 2);
        q ^= (uint8_t)(q << 4);
        if (q & 0x80) q ^= 0x09;
        sbox[p] = q ^ turned(q, 1) ^ turned(q, 2) ^ turned(q, 3) ^ turned(q, 4) ^ 0x63;
    } while (p != 1);
    sbox[0] = 0x63;
    for (int i = 0; i < 256; i++) {
        uint32_t s = sbox[i], d = times_x(sbox[i]), w = d | s << 8 | s << 16 | (d ^ s) << 24;
        for (int r = 0; r < 4; r++) row[r][i] = r ? w << 8 * r | w >> (32 - 8 * r) : w;
    }
}

static uint32_t load(const uint8_t *at) {
    uint32_t w;
    memcpy(&w, at, 4);
    return w;
}

// Expands a key of so many bytes into round keys, and gives the number of rounds.
int expand(const uint8_t *key, int length, uint8_t *keys) {
    int words = length / 4, rounds = words + 6;
    uint8_t constant = 1;
    make_tables();
    memcpy(keys, key, (size_t)length);
    for (int i = words; i < 4 * (rounds + 1); i++) {
        uint8_t t[4];
        memcpy(t, keys + 4 * (i - 1), 4);
        if (i % words == 0) {
            uint8_t first = t[0];
            t[0] = sbox[t[1]] ^ constant, t[1] = sbox[t[2]], t[2] = sbox[t[3]], t[3] = sbox[first];
            constant = times_x(constant);
        } else if (words == 8 && i % 8 == 4) {
            for (int j = 0; j < 4; j++) t[j] = sbox[t[j]];
        }
        for (int j = 0; j < 4; j++) keys[4 * i + j] = keys[4 * (i - words) + j] ^ t[j];
    }
    return rounds;
}

#define MIXED(a, b, c, d) (row[0][(a) & 255] ^ row[1][(b) >> 8 & 255] ^ row[2][(c) >> 16 & 255] ^ row[3][(d) >> 24])
#define LAST(a, b, c, d) \
    ((row[2][(a) & 255] & 0xff) ^ (row[3][(b) >> 8 & 255] & 0xff00) ^ (row[0][(c) >> 16 & 255] & 0xff0000) ^ (row[1][(d) >> 24] & 0xff000000))

// Enciphers whole blocks in place.
void cbc_seal(const uint8_t *keys, int rounds, const uint8_t *iv, uint8_t *bytes, size_t size) {
    uint32_t a = load(iv), b = load(iv + 4), c = load(iv + 8), d = load(iv + 12);
    for (size_t at = 0; at < size; at += 16) {
        uint8_t *block = bytes + at;
        const uint8_t *key = keys;
        a ^= load(block) ^ load(key), b ^= load(block + 4) ^ load(key + 4);
        c ^= load(block + 8) ^ load(key + 8), d ^= load(block + 12) ^ load(key + 12);
        for (int n = 1; n < rounds; n++) {
            key += 16;
            uint32_t w = MIXED(a, b, c, d) ^ load(key), x = MIXED(b, c, d, a) ^ load(key + 4);
            uint32_t y = MIXED(c, d, a, b) ^ load(key + 8), z = MIXED(d, a, b, c) ^ load(key + 12);
            a = w, b = x, c = y, d = z;
        }
        key += 16;
        uint32_t w = LAST(a, b, c, d) ^ load(key), x = LAST(b, c, d, a) ^ load(key + 4);
        uint32_t y = LAST(c, d, a, b) ^ load(key + 8), z = LAST(d, a, b, c) ^ load(key + 12);
        a = w, b = x, c = y, d = z;
        memcpy(block, &a, 4), memcpy(block + 4, &b, 4), memcpy(block + 8, &c, 4), memcpy(block + 12, &d, 4);
    }
}
