// Uses a heap, and makes one mistake of each kind. Its malloc takes the next
// bytes, or those of the last block of the same size that was freed. The
// module, with names and lines:
//
//     clang --target=wasm32 -mcpu=mvp -O0 -gdwarf-4 -fdebug-compilation-dir=. \
//       -fno-builtin -c -o h.o heap.c
//     wasm-ld --no-entry --export=mistakes -o heap.wasm h.o

typedef unsigned long size_t;
struct freed { struct freed *next; size_t size; };

static char heap[4096];
static size_t used;
static struct freed *last;

void *malloc(size_t size) {
  struct freed *found = last;
  if (found && found->size == size) {
    last = found->next;
    return found;
  }
  used += (size + 15) / 16 * 16;
  return used <= sizeof heap ? heap + used - (size + 15) / 16 * 16 : 0;
}

void free(void *block) {
  struct freed *found = block;
  found->next = last;
  found->size = 16;
  last = found;
}

int mistakes(void) {
  int *kept = malloc(16), *lost = malloc(40), *twice = malloc(16);
  kept[0] = lost[0] = twice[0] = 7;
  free(kept);
  free(twice);
  int late = kept[0];
  twice[3] = 1;
  free(twice);
  return late;
}
