// A calculator of 64-bit numbers that keeps its last result in memory. The module that clang makes of it is calculator.wasm:
//
//     clang --target=wasm32 -mcpu=mvp -Os -nostdlib -Wl,--no-entry -o calculator.wasm calculator.c

typedef long long number;
typedef number (*change)(number);

static number last;

__attribute__((import_module("env"), import_name("ask"))) number ask(unsigned sign);

static number negate(number a) { return -a; }
static number square(number a) { return a * a; }
static const change changes[] = {negate, square};

// by a sign: + - * /, and the host is asked for the others
__attribute__((export_name("calculate"))) number calculate(unsigned sign, number a, number b) {
  switch (sign) {
  case '+': return last = a + b;
  case '-': return last = a - b;
  case '*': return last = a * b;
  case '/': return last = a / b;
  default: return last = ask(sign);
  }
}

// the last result is negated by 0, and squared by 1
__attribute__((export_name("again"))) number again(unsigned which) { return calculate('+', changes[which](last), 0); }
