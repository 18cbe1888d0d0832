// The value of an expression of numbers, + - * / and parentheses, by recursive descent. The host writes it to memory. The module that
// clang makes of it is expression.wasm:
//
//     clang --target=wasm32 -mcpu=mvp -O0 -nostdlib -Wl,--no-entry -Wl,--allow-undefined -o expression.wasm expression.c

static char text[64];
static const char *at;

__attribute__((import_module("env"), import_name("ask"))) void ask(char *line);

static int sum(void);

static int accept(char sign) {
  if (*at != sign)
    return 0;
  at++;
  return 1;
}

static int number(void) {
  int value = 0;
  while (*at >= '0' && *at <= '9')
    value = 10 * value + *at++ - '0';
  return value;
}

static int factor(void) {
  if (accept('-'))
    return -factor();
  if (!accept('('))
    return number();
  int value = sum();
  accept(')');
  return value;
}

static int product(void) {
  int value = factor();
  for (;;)
    if (accept('*'))
      value *= factor();
    else if (accept('/'))
      value /= factor();
    else
      return value;
}

static int sum(void) {
  int value = product();
  for (;;)
    if (accept('+'))
      value += product();
    else if (accept('-'))
      value -= product();
    else
      return value;
}

__attribute__((export_name("value"))) int value(void) {
  ask(text);
  at = text;
  return sum();
}
