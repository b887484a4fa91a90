/* SHA-256 (FIPS 180-4) built as the Rattle crate is: rounds and schedule by eight, whole blocks straight from the data.
   Digests 16 MiB that it makes, as often as its argument says (once without one), and prints the digest. */
#include <stdint.h>
#include <stdio.h>
#include <stdlib.h>
#include <string.h>

#define SIZE 16777216u

static const uint32_t K[64] = {
    0x428a2f98, 0x71374491, 0xb5c0fbcf, 0xe9b5dba5, 0x3956c25b, 0x59f111f1, 0x923f82a4, 0xab1c5ed5,
    0xd807aa98, 0x12835b01, 0x243185be, 0x550c7dc3, 0x72be5d74, 0x80deb1fe, 0x9bdc06a7, 0xc19bf174,
    0xe49b69c1, 0xefbe4786, 0x0fc19dc6, 0x240ca1cc, 0x2de92c6f, 0x4a7484aa, 0x5cb0a9dc, 0x76f988da,
    0x983e5152, 0xa831c66d, 0xb00327c8, 0xbf597fc7, 0xc6e00bf3, 0xd5a79147, 0x06ca6351, 0x14292967,
    0x27b70a85, 0x2e1b2138, 0x4d2c6dfc, 0x53380d13, 0x650a7354, 0x766a0abb, 0x81c2c92e, 0x92722c85,
    0xa2bfe8a1, 0xa81a664b, 0xc24b8b70, 0xc76c51a3, 0xd192e819, 0xd6990624, 0xf40e3585, 0x106aa070,
    0x19a4c116, 0x1e376c08, 0x2748774c, 0x34b0bcb5, 0x391c0cb3, 0x4ed8aa4a, 0x5b9cca4f, 0x682e6ff3,
    0x748f82ee, 0x78a5636f, 0x84c87814, 0x8cc70208, 0x90befffa, 0xa4506ceb, 0xbef9a3f7, 0xc67178f2};

typedef struct {
  uint32_t words[8];
  uint8_t block[64];
  size_t filled;
  uint64_t count;
} sha256;

static inline uint32_t rotr(uint32_t x, int n) { return x >> n | x << (32 - n); }
static inline uint32_t word(const uint8_t *p) {
  return (uint32_t)p[0] << 24 | (uint32_t)p[1] << 16 | (uint32_t)p[2] << 8 | p[3];
}

static inline void extend(uint32_t *w, int t) {
  uint32_t a = w[t - 15], b = w[t - 2];
  w[t] = (rotr(b, 17) ^ rotr(b, 19) ^ b >> 10) + w[t - 7] + (rotr(a, 7) ^ rotr(a, 18) ^ a >> 3) + w[t - 16];
}

static inline void one(uint32_t *s, uint32_t k, uint32_t w) {
  uint32_t e = s[4], a = s[0];
  uint32_t t1 = s[7] + (rotr(e, 6) ^ rotr(e, 11) ^ rotr(e, 25)) + ((e & s[5]) ^ (~e & s[6])) + k + w;
  uint32_t t2 = (rotr(a, 2) ^ rotr(a, 13) ^ rotr(a, 22)) + ((a & s[1]) ^ (a & s[2]) ^ (s[1] & s[2]));
  s[7] = s[6]; s[6] = s[5]; s[5] = e; s[4] = s[3] + t1;
  s[3] = s[2]; s[2] = s[1]; s[1] = a; s[0] = t1 + t2;
}

static void compress(uint32_t *h, const uint8_t *p) {
  uint32_t w[64], s[8];
  for (int t = 0; t < 16; t++) w[t] = word(p + 4 * t);
  for (int q = 2; q < 8; q++) {
    int t = 8 * q;
    extend(w, t); extend(w, t + 1); extend(w, t + 2); extend(w, t + 3);
    extend(w, t + 4); extend(w, t + 5); extend(w, t + 6); extend(w, t + 7);
  }
  for (int i = 0; i < 8; i++) s[i] = h[i];
  for (int q = 0; q < 8; q++) {
    int t = 8 * q;
    one(s, K[t], w[t]); one(s, K[t + 1], w[t + 1]); one(s, K[t + 2], w[t + 2]); one(s, K[t + 3], w[t + 3]);
    one(s, K[t + 4], w[t + 4]); one(s, K[t + 5], w[t + 5]); one(s, K[t + 6], w[t + 6]); one(s, K[t + 7], w[t + 7]);
  }
  for (int i = 0; i < 8; i++) h[i] += s[i];
}

static void begin(sha256 *s) {
  static const uint32_t start[8] = {0x6a09e667, 0xbb67ae85, 0x3c6ef372, 0xa54ff53a,
                                    0x510e527f, 0x9b05688c, 0x1f83d9ab, 0x5be0cd19};
  memcpy(s->words, start, sizeof start);
  s->filled = 0;
  s->count = 0;
}

static void write_bytes(sha256 *s, const uint8_t *p, size_t n) {
  size_t room = 64 - s->filled;
  s->count += n;
  if (n < room) {
    memcpy(s->block + s->filled, p, n);
    s->filled += n;
    return;
  }
  memcpy(s->block + s->filled, p, room);
  compress(s->words, s->block);
  p += room;
  n -= room;
  for (size_t i = 0; i < n / 64; i++) compress(s->words, p + 64 * i);
  s->filled = n % 64;
  memcpy(s->block, p + (n - n % 64), n % 64);
}

static void answer(const sha256 *s, uint8_t *out) {
  uint8_t last[128] = {0};
  uint32_t h[8];
  size_t end = s->filled + 9 + (119 - s->filled) % 64;
  memcpy(h, s->words, sizeof h);
  memcpy(last, s->block, s->filled);
  last[s->filled] = 128;
  for (int i = 0; i < 8; i++) last[end - 1 - i] = (uint8_t)(8 * s->count >> 8 * i);
  for (size_t i = 0; i < end / 64; i++) compress(h, last + 64 * i);
  for (int i = 0; i < 32; i++) out[i] = (uint8_t)(h[i / 4] >> (24 - 8 * (i % 4)));
}

int main(int argc, char **argv) {
  unsigned long times = argc > 1 ? strtoul(argv[1], 0, 10) : 1;
  uint8_t *data = malloc(SIZE), out[32];
  sha256 s;
  if (!data) return 1;
  for (uint32_t i = 0; i < SIZE; i++) data[i] = (uint8_t)(i % 251);
  do {
    begin(&s);
    write_bytes(&s, data, SIZE);
    answer(&s, out);
    __asm__ volatile("" : : "r"(out) : "memory"); /* each digest is really taken */
  } while (times-- > 1);
  for (int i = 0; i < 32; i++) printf("%02x", out[i]);
  printf("\n");
  return 0;
}
