/* A yardstick for crates/half_speed: the same work in C, with SHA-256 of one block written out by FIPS 180-4.
 *
 *   cc -O3 -o yardstick yardstick.c && ./yardstick hash|garble|evaluate NUMBER
 *
 * prints the low 64 bits of the last label, which is what half_speed ends with. bench/gates.py times both.
 */
#include <stdint.h>
#include <stdio.h>
#include <stdlib.h>
#include <string.h>

typedef unsigned __int128 Label;

static const uint32_t CONSTANTS[64] = {
    0x428a2f98, 0x71374491, 0xb5c0fbcf, 0xe9b5dba5, 0x3956c25b, 0x59f111f1, 0x923f82a4, 0xab1c5ed5,
    0xd807aa98, 0x12835b01, 0x243185be, 0x550c7dc3, 0x72be5d74, 0x80deb1fe, 0x9bdc06a7, 0xc19bf174,
    0xe49b69c1, 0xefbe4786, 0x0fc19dc6, 0x240ca1cc, 0x2de92c6f, 0x4a7484aa, 0x5cb0a9dc, 0x76f988da,
    0x983e5152, 0xa831c66d, 0xb00327c8, 0xbf597fc7, 0xc6e00bf3, 0xd5a79147, 0x06ca6351, 0x14292967,
    0x27b70a85, 0x2e1b2138, 0x4d2c6dfc, 0x53380d13, 0x650a7354, 0x766a0abb, 0x81c2c92e, 0x92722c85,
    0xa2bfe8a1, 0xa81a664b, 0xc24b8b70, 0xc76c51a3, 0xd192e819, 0xd6990624, 0xf40e3585, 0x106aa070,
    0x19a4c116, 0x1e376c08, 0x2748774c, 0x34b0bcb5, 0x391c0cb3, 0x4ed8aa4a, 0x5b9cca4f, 0x682e6ff3,
    0x748f82ee, 0x78a5636f, 0x84c87814, 0x8cc70208, 0x90befffa, 0xa4506ceb, 0xbef9a3f7, 0xc67178f2};

static uint32_t turn(uint32_t word, int bits) { return (word >> bits) | (word << (32 - bits)); }

/* The first 128 bits of the digest of the label's bytes, low first, and the tweak's, high first. */
static Label hash_label(Label label, uint64_t tweak) {
  uint8_t block[64] = {0};
  for (int i = 0; i < 16; i++) block[i] = (uint8_t)(label >> (8 * i));
  for (int i = 0; i < 8; i++) block[16 + i] = (uint8_t)(tweak >> (56 - 8 * i));
  block[24] = 0x80;
  block[63] = 24 * 8;
  uint32_t words[64];
  for (int i = 0; i < 16; i++)
    words[i] = (uint32_t)block[4 * i] << 24 | (uint32_t)block[4 * i + 1] << 16 | (uint32_t)block[4 * i + 2] << 8 | block[4 * i + 3];
  for (int i = 16; i < 64; i++) {
    uint32_t low = turn(words[i - 15], 7) ^ turn(words[i - 15], 18) ^ (words[i - 15] >> 3);
    uint32_t high = turn(words[i - 2], 17) ^ turn(words[i - 2], 19) ^ (words[i - 2] >> 10);
    words[i] = words[i - 16] + low + words[i - 7] + high;
  }
  const uint32_t start[8] = {0x6a09e667, 0xbb67ae85, 0x3c6ef372, 0xa54ff53a, 0x510e527f, 0x9b05688c, 0x1f83d9ab, 0x5be0cd19};
  uint32_t a = start[0], b = start[1], c = start[2], d = start[3], e = start[4], f = start[5], g = start[6], h = start[7];
  for (int i = 0; i < 64; i++) {
    uint32_t first = h + (turn(e, 6) ^ turn(e, 11) ^ turn(e, 25)) + ((e & f) ^ (~e & g)) + CONSTANTS[i] + words[i];
    uint32_t second = (turn(a, 2) ^ turn(a, 13) ^ turn(a, 22)) + ((a & b) ^ (a & c) ^ (b & c));
    h = g, g = f, f = e, e = d + first, d = c, c = b, b = a, a = first + second;
  }
  const uint32_t digest[4] = {start[0] + a, start[1] + b, start[2] + c, start[3] + d};
  Label result = 0;
  for (int i = 0; i < 16; i++) result |= (Label)(uint8_t)(digest[i / 4] >> (24 - 8 * (i % 4))) << (8 * i);
  return result;
}

static Label masked(Label selects, Label label) { return (selects & 1) ? label : 0; }

int main(int count, char **words) {
  if (count != 3) return 2;
  const Label delta = (Label)0x0123456789abcdef << 64 | 0x0123456789abcdef;
  uint64_t number = strtoull(words[2], NULL, 10);
  Label a = 99, b = 12345, found = 12345;
  for (uint64_t i = 0; i < number; i++) {
    if (!strcmp(words[1], "hash")) {
      found = hash_label(found, i);
    } else if (!strcmp(words[1], "garble")) {
      Label hash_a = hash_label(a, 2 * i), hash_b = hash_label(b, 2 * i + 1);
      Label tg = hash_a ^ hash_label(a ^ delta, 2 * i) ^ masked(b, delta);
      Label te = hash_b ^ hash_label(b ^ delta, 2 * i + 1) ^ a;
      Label zero = hash_a ^ masked(a, tg) ^ hash_b ^ masked(b, te ^ a);
      a = zero, b ^= tg ^ te, found = a ^ b;
    } else {
      Label label = hash_label(a, 2 * i) ^ masked(a, delta) ^ hash_label(b, 2 * i + 1) ^ masked(b, 77 ^ a);
      b = a, a = label, found = a ^ b;
    }
  }
  printf("%llu\n", (unsigned long long)found);
  return 0;
}
