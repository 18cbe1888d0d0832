// The CRC-32 of some bytes, as zlib and PNG have it. The module that clang makes of it is crc32.wasm:
//
//     clang --target=wasm32 -mcpu=mvp -Os -nostdlib -Wl,--no-entry -o crc32.wasm crc32.c

unsigned char buffer[4096];

__attribute__((export_name("place"))) unsigned char *place(void) { return buffer; }

__attribute__((export_name("crc32"))) unsigned crc32(const unsigned char *bytes, unsigned length) {
  unsigned crc = ~0u;
  for (unsigned at = 0; at < length; at++) {
    crc ^= bytes[at];
    for (int bit = 0; bit < 8; bit++) {
      if (crc & 1)
        crc = crc >> 1 ^ 0xEDB88320u;
      else
        crc >>= 1;
    }
  }
  return ~crc;
}
