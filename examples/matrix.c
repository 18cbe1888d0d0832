// Adds the numbers of a matrix of 64 by 64 words, by rows and by columns. A
// row has 256 bytes, which are four lines of a cache with lines of 64 bytes.
// The module, with names and lines:
//
//     clang --target=wasm32 -mcpu=mvp -O1 -gdwarf-4 -fdebug-compilation-dir=. \
//       -fno-vectorize -fno-unroll-loops -fno-inline -c -o m.o matrix.c
//     wasm-ld --no-entry --export=rows --export=columns -o matrix.wasm m.o

enum { SIDE = 64 };
static volatile int matrix[SIDE][SIDE] __attribute__((aligned(65536)));

int rows(void) {
  int sum = 0;
  for (int row = 0; row < SIDE; row++)
    for (int column = 0; column < SIDE; column++)
      sum += matrix[row][column];
  return sum;
}

int columns(void) {
  int sum = 0;
  for (int column = 0; column < SIDE; column++)
    for (int row = 0; row < SIDE; row++)
      sum += matrix[row][column];
  return sum;
}
