// A secret that goes through memory: as a sum to where it must not, and as an address. The module that clang makes of it is
// secret.wasm:
//
//     clang --target=wasm32 -mcpu=mvp -Os -nostdlib -Wl,--no-entry -Wl,--allow-undefined -o secret.wasm secret.c

enum { LENGTH = 4 };

__attribute__((import_module("env"), import_name("read"))) int read_secret(void);
__attribute__((import_module("env"), import_name("show"))) void show(int length, int value);

static volatile unsigned char kept[LENGTH];

// reads a secret, byte by byte
__attribute__((export_name("keep"))) void keep(void) {
  for (int i = 0; i < LENGTH; i++)
    kept[i] = read_secret();
}

// shows how long it is, and what its bytes come to together
__attribute__((export_name("sum"))) void sum(void) {
  int total = 0;
  for (int i = 0; i < LENGTH; i++)
    total += kept[i];
  show(LENGTH, total);
}

// shows a letter that is found by its first byte: the secret is an address there
__attribute__((export_name("letter"))) void letter(void) { show(1, "0123456789abcdef"[kept[0] % 16]); }
