#define TWO(NAME, NUMBER) int NAME(int a) { return a + NUMBER; }
TWO(one, 1) TWO(two, 2) TWO(three, 3) TWO(four, 4)

static int cube(int a) {
  return a * a * a;
}

int twice(int a, int b) {
  return cube(a) +
    cube(b);
}

int other(int a) {
  return cube(a) + 5;
}
