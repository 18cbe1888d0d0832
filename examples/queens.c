// How many ways there are to put n queens on a board of n by n. The module that clang makes of it is queens.wasm:
//
//     clang --target=wasm32 -mcpu=mvp -Os -nostdlib -Wl,--no-entry -Wl,--allow-undefined -o queens.wasm queens.c

__attribute__((import_module("env"), import_name("size"))) unsigned size(void);

static unsigned ways(unsigned all, unsigned columns, unsigned left, unsigned right) {
  if (columns == all)
    return 1;
  unsigned count = 0;
  for (unsigned free = all & ~(columns | left | right); free; free &= free - 1) {
    unsigned place = free & -free;
    count += ways(all, columns | place, (left | place) << 1, (right | place) >> 1);
  }
  return count;
}

__attribute__((export_name("queens"))) unsigned queens(unsigned n) { return ways((1u << n) - 1, 0, 0, 0); }

// on the board that the host asks for
__attribute__((export_name("asked"))) unsigned asked(void) { return queens(size()); }

__attribute__((export_name("twelve"))) unsigned twelve(void) { return queens(12); }
