// A division that answers its quotient and its rest at once, and the greatest common divisor by it. The module that clang makes
// of it is euclid.wasm, in which a struct of two numbers is returned as two results:
//
//     clang --target=wasm32 -mcpu=mvp -mmultivalue -Xclang -target-abi -Xclang experimental-mv -Os -nostdlib -Wl,--no-entry \
//         -o euclid.wasm euclid.c

struct division {
  unsigned quotient, rest;
};

__attribute__((export_name("divide"))) __attribute__((noinline)) struct division divide(unsigned a, unsigned b) {
  return (struct division){a / b, a % b};
}

__attribute__((export_name("divisor"))) unsigned divisor(unsigned a, unsigned b) {
  while (b) {
    unsigned rest = divide(a, b).rest;
    a = b;
    b = rest;
  }
  return a;
}
