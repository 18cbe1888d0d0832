int f(int a) {
  if (a)
    a += 2;
  return a;
}
