/* A yardstick for crates/frame_speed: the same work in C. Its words are `boxes` or `copy`, how many bytes a piece has and
 * how many pieces there are: each piece is copied into an outbox, from there into memory, and from there into an inbox; or
 * it is copied once. It prints how many bytes came through. bench/frames.py times both. */

#include <stdint.h>
#include <stdio.h>
#include <stdlib.h>
#include <string.h>

#define MOST 327680

/* The compiler has to take these bytes for read and written. */
static void used(void *bytes) { __asm__ volatile("" : : "r"(bytes) : "memory"); }

struct box {
  unsigned char bytes[MOST];
  size_t start, end;
};

static struct box outbox, inbox;

static void put(struct box *box, const unsigned char *piece, size_t size) {
  if (MOST - box->end < size) {
    memmove(box->bytes, box->bytes + box->start, box->end - box->start);
    box->end -= box->start;
    box->start = 0;
  }
  memcpy(box->bytes + box->end, piece, size);
  box->end += size;
}

static void drop_front(struct box *box, size_t size) {
  box->start += size;
  if (box->start == box->end) box->start = box->end = 0;
}

int main(int count_of_words, char **words) {
  if (count_of_words != 4) return 2;
  size_t size = strtoull(words[2], NULL, 10);
  uint64_t count = strtoull(words[3], NULL, 10), came = 0;
  unsigned char *piece = malloc(size + 1), *memory = malloc(size + 1);
  if (size > MOST || !piece || !memory) return 2;
  memset(piece, 7, size);
  int through_boxes = !strcmp(words[1], "boxes");
  for (uint64_t i = 0; i < count; i++) {
    used(piece);
    if (through_boxes) {
      put(&outbox, piece, size);
      memcpy(memory, outbox.bytes + outbox.start, size);
      drop_front(&outbox, size);
      used(memory);
      put(&inbox, memory, size);
      used(inbox.bytes);
      drop_front(&inbox, size);
    } else {
      memcpy(memory, piece, size);
      used(memory);
    }
    came += size;
  }
  printf("%llu\n", (unsigned long long)came);
  return 0;
}
