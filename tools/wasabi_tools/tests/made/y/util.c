

int g(int a) {
  if (a)
    a += 3;
  return a;
}
