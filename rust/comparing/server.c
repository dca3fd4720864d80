/* Answers cases by the archives' calls, from standard input to standard output; pipe.rs is the other end. Numbers are little-endian.
     case:    call, sentinel, fill: u8; lengths of the source and of the destination, number of pieces: u32; the pieces' lengths: u32;
              the source
     answer:  each told: number u8, first u64, second u64; the byte END; the destination's bytes, or the buffer's
   The destination starts as `fill` in every byte, or, in place, as the source. Bytes around it that a call may not touch are watched. */
typedef unsigned char u8;
typedef unsigned int u32;
typedef unsigned long usize;

u8 laksovuth_max_encoding_overhead(usize, usize *);
u8 laksovuth_max_encoding_length(usize, usize *);
u8 laksovuth_encode(const u8 *, usize, u8 *, usize, usize *);
u8 laksovuth_encode_including_sentinels(const u8 *, usize, u8 *, usize, usize *);
u8 laksovuth_encode_with_sentinel(const u8 *, usize, u8 *, usize, u8, usize *);
u8 laksovuth_decode(const u8 *, usize, u8 *, usize, usize *, usize *);
u8 laksovuth_decode_in_place(u8 *, usize, usize *, usize *);
u8 laksovuth_decode_with_sentinel(const u8 *, usize, u8 *, usize, u8, usize *);
u8 probe_decode_in_place_with_sentinel(u8 *, usize, u8, usize *);
u8 probe_encoder_start(usize *, usize, const u8 *, usize);
u8 probe_encoder_push(usize *, usize, u8 *, usize, const u8 *, usize);
u8 probe_encoder_finalize(const usize *, usize, u8 *, usize, usize *);
u8 probe_decoder_step(usize *, u8 *, u8, u8 *, u8 *);
u8 probe_decoder_push(usize *, usize, u8 *, usize, const u8 *, usize, usize *, usize *);

long read(int, void *, usize);
long write(int, const void *, usize);

enum { LONGEST = 1 << 22, MOST_PIECES = 1 << 12, WATCHED = 16, WATCH = 0xC3, TRESPASS = 255, UNKNOWN = 254, END = 253 };

/* As pipe.rs numbers them. */
enum { OVERHEAD, LENGTH, ENCODE, AROUND, CHOSEN, DECODE, IN_PLACE, UNCHOSEN, IN_PLACE_CHOSEN, ENCODE_PIECES, ENCODE_OPEN, DECODE_PIECES, STEP };
/* 01's numbers of the answers after which the rest of a piece is pushed again. */
enum { FRAME = 0, INVALID_FRAME = 2, TARGET_BUF_TOO_SMALL = 3 };

static u8 in[1 << 16], out[1 << 16], source[LONGEST], store[LONGEST + 2 * WATCHED];
static u32 piece[MOST_PIECES];
static u8 *const dest = store + WATCHED;
static usize have, at, used;

static int get(void *to, usize n) {
  u8 *p = to;
  while (n) {
    if (at == have) {
      long k = read(0, in, sizeof in);
      if (k <= 0) return 0;
      have = (usize)k;
      at = 0;
    }
    usize k = have - at < n ? have - at : n;
    for (usize i = 0; i < k; i++) p[i] = in[at + i];
    p += k;
    at += k;
    n -= k;
  }
  return 1;
}

static void flush(void) {
  for (usize i = 0; i < used;) {
    long k = write(1, out + i, used - i);
    if (k <= 0) break;
    i += (usize)k;
  }
  used = 0;
}

static void put(const void *from, usize n) {
  const u8 *p = from;
  while (n) {
    if (used == sizeof out) flush();
    usize k = sizeof out - used < n ? sizeof out - used : n;
    for (usize i = 0; i < k; i++) out[used + i] = p[i];
    p += k;
    used += k;
    n -= k;
  }
}

struct head { u8 call, sentinel, fill; u32 length, room, pieces; };

static void prepare(const struct head *h) {
  for (usize i = 0; i < WATCHED; i++) store[i] = WATCH;
  for (usize i = 0; i < h->room; i++) dest[i] = h->fill;
  for (usize i = 0; i < WATCHED; i++) dest[h->room + i] = WATCH;
  if (h->call == IN_PLACE || h->call == IN_PLACE_CHOSEN)
    for (usize i = 0; i < h->room; i++) dest[i] = source[i];
}

static int trespassed(usize room) {
  for (usize i = 0; i < WATCHED; i++)
    if (store[i] != WATCH || dest[room + i] != WATCH) return 1;
  return 0;
}

static void told(u8 number, usize first, usize second) {
  put(&number, 1);
  put(&first, 8);
  put(&second, 8);
}

static u8 one_shot(const struct head *h, usize *first, usize *second) {
  usize n = h->length, m = h->room;
  switch (h->call) {
  case OVERHEAD: return laksovuth_max_encoding_overhead(*(usize *)source, first);
  case LENGTH: return laksovuth_max_encoding_length(*(usize *)source, first);
  case ENCODE: return laksovuth_encode(source, n, dest, m, first);
  case AROUND: return laksovuth_encode_including_sentinels(source, n, dest, m, first);
  case CHOSEN: return laksovuth_encode_with_sentinel(source, n, dest, m, h->sentinel, first);
  case DECODE: return laksovuth_decode(source, n, dest, m, first, second);
  case IN_PLACE: return laksovuth_decode_in_place(dest, m, first, second);
  case IN_PLACE_CHOSEN: return probe_decode_in_place_with_sentinel(dest, m, h->sentinel, first);
  case UNCHOSEN: return laksovuth_decode_with_sentinel(source, n, dest, m, h->sentinel, first);
  }
  return UNKNOWN;
}

/* Every piece is pushed, also after a refusal; then the end, unless the encoding is left open. */
static void encode_pieces(const struct head *h) {
  usize state[4] = {9, 9, 9, 9}, length = 0, from = 0;
  u8 number = probe_encoder_start(state, 4, dest, h->room);
  told(number, 0, 0);
  if (number) return;
  for (u32 i = 0; i < h->pieces; from += piece[i++]) told(probe_encoder_push(state, 4, dest, h->room, source + from, piece[i]), 0, 0);
  if (h->call == ENCODE_OPEN) return;
  number = probe_encoder_finalize(state, 4, dest, h->room, &length);
  told(number, length, 0);
}

/* Every piece is pushed, and its rest again after a frame or a refusal. */
static void decode_pieces(const struct head *h) {
  usize state[4] = {0, 0, 0, 0}, from = 0;
  for (u32 i = 0; i < h->pieces; from += piece[i++]) {
    usize at = 0;
    do {
      usize first = 0, second = 0;
      u8 number = probe_decoder_push(state, 4, dest, h->room, source + from + at, piece[i] - at, &first, &second);
      told(number, first, second);
      if (number != FRAME && number != INVALID_FRAME && number != TARGET_BUF_TOO_SMALL) break;
      at += second;
    } while (at < piece[i]);
  }
}

/* The source is a state's number, its bytes left, and the byte. */
static void step(void) {
  usize state = source[0];
  u8 left = source[1], given = 0, place = 0, number = probe_decoder_step(&state, &left, source[2], &given, &place);
  told(number, given, place);
  told((u8)state, left, 0);
}

/* One case; 0 at the end of the input. */
static int answer(void) {
  struct head h;
  if (!get(&h.call, 1) || !get(&h.sentinel, 1) || !get(&h.fill, 1) || !get(&h.length, 4) || !get(&h.room, 4) || !get(&h.pieces, 4)) return 0;
  if (h.length > LONGEST || h.room > LONGEST || h.pieces > MOST_PIECES || !get(piece, 4 * h.pieces) || !get(source, h.length)) return 0;
  prepare(&h);
  if (h.call == ENCODE_PIECES || h.call == ENCODE_OPEN)
    encode_pieces(&h);
  else if (h.call == DECODE_PIECES)
    decode_pieces(&h);
  else if (h.call == STEP)
    step();
  else {
    usize first = 0, second = 0;
    u8 number = one_shot(&h, &first, &second);
    told(number, first, second);
  }
  if (trespassed(h.room)) told(TRESPASS, 0, 0);
  u8 end = END;
  put(&end, 1);
  put(dest, h.room);
  return 1;
}

int main(void) {
  while (answer()) {}
  flush();
  return 0;
}
