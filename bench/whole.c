/* whole.c: the work of `fill`, `sum` and `verify` over a file, by OpenSSL's libcrypto, as the other side of
 * bench/whole.py.
 *
 *   whole fill|sum|verify CIPHER SECTORSIZE FILE BYTES CHUNK
 *
 * CIPHER: aes-128-xts aes-256-xts aes-128-cbc aes-256-cbc, plain, or with +sha256 +sha384 +sha512 behind it (GELI's
 * pieces: a key of each unit by SHA-256, an HMAC of its ciphertext stored before it).
 * CHUNK: how many bytes a call of the system moves; 512 as GELI here does (fill then also seeks to the end for each),
 * more as a C programmer would. Prints the seconds and, for sum, the digest. `verify` computes each unit's code and
 * compares it, deciphers nothing, and ends with status 3 where one differs. */
#define _GNU_SOURCE
#include <fcntl.h>
#include <openssl/evp.h>
#include <openssl/sha.h>
#include <stdint.h>
#include <stdio.h>
#include <stdlib.h>
#include <string.h>
#include <sys/stat.h>
#include <time.h>
#include <unistd.h>

static double now(void) { struct timespec t; clock_gettime(CLOCK_MONOTONIC, &t); return t.tv_sec + 1e-9 * t.tv_nsec; }

typedef unsigned __int128 u128;
static u128 state, step;
static uint64_t word(void) {
  state = state * (((u128)0x2360ED051FC65DA4ULL << 64) | 0x4385DF649FCCF645ULL) + step;
  uint64_t x = (uint64_t)(state >> 64) ^ (uint64_t)state;
  unsigned r = state >> 122;
  return (x >> r) | (x << (-r & 63));
}

#define SHA(bits, T, INIT, UPDATE, FINAL, BLOCK)                                                            \
  static void hmac##bits(T *in, T *out, const uint8_t *data, size_t n, uint8_t *to) {                        \
    T c = *in; UPDATE(&c, data, n); uint8_t d[64]; FINAL(d, &c);                                              \
    c = *out; UPDATE(&c, d, bits / 8); FINAL(to, &c);                                                         \
  }                                                                                                          \
  static void pads##bits(const uint8_t *key, size_t n, T *in, T *out) {                                      \
    uint8_t p[BLOCK]; memset(p, 0x36, BLOCK); for (size_t i = 0; i < n; i++) p[i] ^= key[i];                  \
    INIT(in); UPDATE(in, p, BLOCK);                                                                           \
    memset(p, 0x5c, BLOCK); for (size_t i = 0; i < n; i++) p[i] ^= key[i];                                    \
    INIT(out); UPDATE(out, p, BLOCK);                                                                         \
  }
SHA(256, SHA256_CTX, SHA256_Init, SHA256_Update, SHA256_Final, 64)
SHA(384, SHA512_CTX, SHA384_Init, SHA384_Update, SHA384_Final, 128)
SHA(512, SHA512_CTX, SHA512_Init, SHA512_Update, SHA512_Final, 128)

static int auth; /* 0, 256, 384, 512 */
static SHA256_CTX unit_key_state;

static void tag(uint64_t offset, const uint8_t *data, size_t n, uint8_t *to) {
  uint8_t le[8], key[32];
  for (int i = 0; i < 8; i++) le[i] = offset >> (8 * i);
  SHA256_CTX c = unit_key_state;
  SHA256_Update(&c, le, 8);
  SHA256_Final(key, &c);
  if (auth == 256) { SHA256_CTX a, b; pads256(key, 32, &a, &b); hmac256(&a, &b, data, n, to); }
  if (auth == 384) { SHA512_CTX a, b; pads384(key, 32, &a, &b); hmac384(&a, &b, data, n, to); }
  if (auth == 512) { SHA512_CTX a, b; pads512(key, 32, &a, &b); hmac512(&a, &b, data, n, to); }
}

int main(int argc, char **argv) {
  if (argc != 7) return 2;
  int seals = !strcmp(argv[1], "fill"), verifies = !strcmp(argv[1], "verify");
  char name[32]; strncpy(name, argv[2], 31); name[31] = 0;
  char *plus = strchr(name, '+');
  if (plus) { auth = atoi(plus + 4); *plus = 0; }
  size_t S = atol(argv[3]), bytes = atol(argv[5]), chunk = atol(argv[6]);
  int xts = !!strstr(name, "xts");
  uint8_t key[64]; memset(key, 1, 32); memset(key + 32, 2, 32);
  if (strstr(name, "128")) memset(key + 16, 2, 16);
  const EVP_CIPHER *cipher = EVP_get_cipherbyname(name);
  EVP_CIPHER_CTX *ctx = EVP_CIPHER_CTX_new();
  EVP_CipherInit_ex(ctx, cipher, 0, key, (uint8_t[16]){0}, seals);
  EVP_CIPHER_CTX_set_padding(ctx, 0);
  SHA256_Init(&unit_key_state); SHA256_Update(&unit_key_state, key, 32);
  int fd = open(argv[4], seals ? O_RDWR : O_RDONLY);
  if (fd < 0) return 1;
  SHA256_CTX sum; SHA256_Init(&sum);
  SHA256_CTX iv_state = unit_key_state;
  static uint8_t buffer[1 << 18], disk[1 << 19];
  size_t most = 131072 / S * S, hash = auth / 8, data = auth ? (512 - hash) & ~15ul : 512;
  size_t units = auth ? (S + data - 1) / data : S / 512;
  state = 12345; step = 54321 | 1;
  double start = now();
  for (size_t done = 0; done < bytes;) {
    size_t count = most < bytes - done ? most : bytes - done, sectors = count / S;
    off_t at = (off_t)(done / S) * units * 512;
    size_t on_disk = sectors * units * 512;
    if (seals) for (size_t i = 0; i < count; i += 8) { uint64_t w = word(); memcpy(buffer + i, &w, 8); }
    else for (size_t i = 0; i < on_disk; i += chunk) {
      size_t k = chunk < on_disk - i ? chunk : on_disk - i;
      if (pread(fd, disk + i, k, at + i) != (ssize_t)k) return 1;
    }
    for (size_t s = 0; s < sectors; s++) {
      uint64_t first = at / 512 + s * units;
      size_t from = s * S;
      for (size_t u = 0; u < (auth ? units : 1); u++) {
        size_t n = auth ? (data < s * S + S - from ? data : s * S + S - from) : S;
        uint8_t *d = disk + (s * units + u) * 512 + hash;
        uint64_t offset = 512 * (first + u);
        uint8_t iv[32] = {0};
        if (xts) for (int i = 0; i < 8; i++) iv[i] = offset >> (8 * i);
        else { uint8_t le[8]; for (int i = 0; i < 8; i++) le[i] = offset >> (8 * i); SHA256_CTX c = iv_state; SHA256_Update(&c, le, 8); SHA256_Final(iv, &c); }
        int got;
        uint8_t t[64];
        if (!seals && auth) { tag(offset, d, n, t); if (memcmp(t, d - hash, hash)) return 3; }
        if (verifies) { from += n; continue; }
        EVP_CipherInit_ex(ctx, 0, 0, 0, iv, -1);
        EVP_CipherUpdate(ctx, seals ? d : buffer + from, &got, seals ? buffer + from : d, n);
        if (seals && auth) { tag(offset, d, n, t); memcpy(d - hash, t, hash); }
        from += n;
      }
    }
    if (seals) for (size_t i = 0; i < on_disk; i += chunk) {
      size_t k = chunk < on_disk - i ? chunk : on_disk - i;
      if (chunk == 512) lseek(fd, 0, SEEK_END);
      if (pwrite(fd, disk + i, k, at + i) != (ssize_t)k) return 1;
    } else if (!verifies) SHA256_Update(&sum, buffer, count);
    done += count;
  }
  double spent = now() - start;
  uint8_t digest[32]; SHA256_Final(digest, &sum);
  printf("%.6f ", spent);
  for (int i = 0; i < 32; i++) printf("%02x", digest[i]);
  puts("");
}
