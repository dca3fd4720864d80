/* One operation, done so many times, so that a counter outside can take the difference of two runs.
     driver SIDE OP KIND SIZE ROOM TIMES
   SIDE ours or real; OP encode or decode; ROOM worst (the longest an encoding can be) or exact (what it needs).
     driver ours receive records EACH - TIMES
   opens a batch and receives 120 particles, EACH to a frame, every frame by one call.
   The buffers are not cleared between calls. The messages of each KIND are the same for both sides. */
typedef unsigned char u8;
typedef unsigned int u32;
typedef unsigned long usize;

/* As include/laksovuth.h has them. */
u8 laksovuth_encode(const u8 *, usize, u8 *, usize, usize *);
u8 laksovuth_decode(const u8 *, usize, u8 *, usize, usize *, usize *);
u8 laksovuth_write_frame(const u8 *, usize, u8 *, usize, usize *, usize *);
usize laksovuth_state_length(void);
u8 laksovuth_open(unsigned long *, usize, unsigned short, const u8 *, usize);
u8 laksovuth_receive(unsigned long *, usize, u8 *, usize, u8 *, usize, const u8 *, usize, usize *, usize *, usize *);
usize real_encode(const u8 *, usize, u8 *, usize);
usize real_decode(const u8 *, usize, u8 *, usize);

/* The Rust side is built to abort, and its core library still names the handler of unwinding. */
void rust_eh_personality(void) {}

static u8 message[1 << 21], encoded[1 << 21], decoded[1 << 21];

static int same(const char *a, const char *b) {
  while (*a && *a == *b) a++, b++;
  return *a == *b;
}

static usize number(const char *s) {
  usize n = 0;
  while (*s) n = n * 10 + (usize)(*s++ - '0');
  return n;
}

static u32 seed = 12345;
static u8 random_byte(void) {
  seed ^= seed << 13;
  seed ^= seed >> 17;
  seed ^= seed << 5;
  return (u8)(seed >> 11);
}

/* A particle record of batch 1: index, three coordinates near the middle of the tank, a weight of some thousands. */
static u8 record_byte(usize i) {
  usize k = i / 16;
  switch (i % 16) {
  case 0: return 1;
  case 2: return (u8)k;
  case 3: return (u8)(k >> 8);
  case 4: case 6: case 8: return random_byte();
  case 5: case 7: return random_byte() & 15;
  case 9: return random_byte() & 7;
  case 10: return 1;
  case 12: return random_byte();
  case 13: return random_byte() & 31;
  default: return 0;
  }
}

static u8 kind_byte(const char *kind, usize i) {
  static const char text[] = "The tank is quiet; nothing moves but the marked ones. ";
  if (same(kind, "zero")) return 0;
  if (same(kind, "nonzero")) return (u8)(i % 255 + 1);
  if (same(kind, "random")) return random_byte();
  if (same(kind, "text")) return (u8)text[i % (sizeof text - 1)];
  if (same(kind, "records")) return record_byte(i);
  return i % 8 == 7 ? 0 : (u8)(i % 255 + 1); /* eighth */
}

static usize encode(int ours, usize n, usize room) {
  usize length = 0;
  if (!ours) return real_encode(message, n, encoded, room);
  return laksovuth_encode(message, n, encoded, room, &length) ? ~0ul : length;
}

static usize decode(int ours, usize n, usize room) {
  usize size = 0, parsed = 0;
  if (!ours) return real_decode(encoded, n, decoded, room);
  return laksovuth_decode(encoded, n, decoded, room, &size, &parsed) ? ~0ul : size;
}

/* The receiver: frames of so many records, written first, then received again and again from a batch opened anew. */
enum { PARTICLES = 120 };

static int receive(usize each, usize times) {
  static unsigned long state[256];
  static u8 buffer[240], table[PARTICLES * 16];
  usize length = laksovuth_state_length(), end = 0, at[PARTICLES + 1], frames = 0, a, b, c;
  for (usize i = 0; i < PARTICLES * 16; i++) message[i] = record_byte(i);
  for (usize i = 0; i < PARTICLES; i += each, frames++) {
    at[frames] = end;
    if (laksovuth_write_frame(message + i * 16, each * 16, encoded + end, 242, &a, &b)) return 3;
    end += a;
  }
  at[frames] = end;
  for (usize t = 0; t < times; t++) {
    if (laksovuth_open(state, length, 1, table, sizeof table)) return 4;
    for (usize k = 0; k < frames; k++)
      if (laksovuth_receive(state, length, buffer, sizeof buffer, table, sizeof table, encoded + at[k], at[k + 1] - at[k], &a, &b, &c) != 15) return 5;
  }
  return 0;
}

int main(int argc, char **argv) {
  if (argc != 7) return 2;
  if (same(argv[2], "receive")) return receive(number(argv[4]), number(argv[6]));
  int ours = same(argv[1], "ours"), decoding = same(argv[2], "decode");
  usize n = number(argv[4]), times = number(argv[6]), worst = n + n / 254 + 2;
  for (usize i = 0; i < n; i++) message[i] = kind_byte(argv[3], i);
  usize length = encode(1, n, worst);
  if (length == ~0ul) return 3;
  usize room = same(argv[5], "exact") ? length : worst;
  for (usize t = 0; t < times; t++) {
    usize got = decoding ? decode(ours, length, n) : encode(ours, n, room);
    if (got != (decoding ? n : length)) return 4;
  }
  return 0;
}
