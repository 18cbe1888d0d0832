// Four ways on which a secret is shown. taint follows the first alone: what the host writes into memory, conditions and addresses
// mark nothing. The module that clang makes of it is unseen.wasm:
//
//     clang --target=wasm32 -mcpu=mvp -O0 -nostdlib -Wl,--no-entry -Wl,--allow-undefined -o unseen.wasm unseen.c

__attribute__((import_module("env"), import_name("get"))) int get(void);
__attribute__((import_module("env"), import_name("fill"))) void fill(char *to, int length);
__attribute__((import_module("env"), import_name("show"))) void show(int value);

static char buffer[4];

// the host answers the secret
__attribute__((export_name("answered"))) void answered(void) { show(get()); }

// the host writes the secret into memory, as read does
__attribute__((export_name("written"))) void written(void) {
  fill(buffer, 4);
  show(buffer[0]);
}

// the secret chooses what is shown
__attribute__((export_name("compared"))) void compared(void) {
  if (get() == 's')
    show('s');
  else
    show('?');
}

// the secret is an address
__attribute__((export_name("found"))) void found(void) { show("0123456789abcdef"[get() % 16]); }
