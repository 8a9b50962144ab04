/* The archive against the reference: seeded random calls of every entry point, every answer and all lent memory compared.
 *
 *   differential [STEPS [SEED]]
 *
 * A difference prints the seed, the step, the call with its numbers and both answers, and ends with 1.
 * Every lent run stands between guards. With -DEXACT it is instead a heap block of exactly its length, for a checker of memory.
 * With -DSHORT every output is a byte shorter than the calls are told, which the guards, or the checker, must find. */
#include "differential.h"
#include <stdio.h>
#include <stdlib.h>
#include <string.h>

static uint64_t seed, chance_state, step;

uint32_t any32(void) {
  chance_state ^= chance_state << 13;
  chance_state ^= chance_state >> 7;
  chance_state ^= chance_state << 17;
  return (uint32_t)(chance_state >> 21);
}

uint32_t below(uint32_t n) { return (uint32_t)((uint64_t)any32() * n >> 32); }

int one_in(uint32_t n) { return below(n) == 0; }

uint32_t number_to(uint32_t most) {
  if (!one_in(24)) return below(most + 1);
  switch (below(6)) {
  case 0: return most;
  case 1: return most + 1;
  case 2: return 256 * (1 + below(255)) + below(most + 1); /* in range once it is cut to a byte */
  case 3: return 65536 * (1 + below(65535)) + below(most + 1);
  case 4: return UINT32_MAX - below(2);
  default: return any32();
  }
}

uint32_t mark(void) {
  if (!one_in(8)) return below(2);
  return one_in(2) ? 256u << below(24) : any32();
}

int32_t disparity(void) {
  static const int32_t others[] = {0, 2, -2, 3, -3, 255, 256, 257, -255, -257, 65535, 65537, INT32_MIN, INT32_MAX, INT32_MIN + 1};
  if (!one_in(24)) return one_in(2) ? 1 : -1;
  return others[below(sizeof others / sizeof others[0])];
}

uint32_t allowed_size(void) { return 8u << (one_in(3) ? below(8) : below(3)); }

uint32_t size_of_segment(void) {
  static const uint32_t others[] = {0, 1, 2, 4, 7, 9, 12, 24, 1023, 1025, 2048, 4096, 65536 + 8, 65536 + 1024, 256 * 9, UINT32_MAX};
  if (!one_in(8)) return allowed_size();
  return one_in(4) ? any32() : others[below(sizeof others / sizeof others[0])];
}

size_t room_for(size_t needed) {
  switch (below(8)) {
  case 0: return needed > 0 ? needed - 1 : 0;
  case 1: return needed + 1;
  case 2: return one_in(4) ? 0 : below((uint32_t)needed + 1);
  case 3: return needed + below(40);
  default: return needed;
  }
}

/* ---- lent memory ---- */

enum { ARENA = 1 << 20, GUARD = 32, MOST_LENT = 16, MOST_WITH = 12 };
static union { uint8_t bytes[ARENA]; uint64_t align; } arenas[3]; /* the archive's, the reference's, as it stood */
static size_t used;
static lent runs[MOST_LENT];
static size_t lents, withs;
static const char *call_name = "none";
static struct { const char *what; int64_t value; } numbers[MOST_WITH];

void begin(const char *name) {
  call_name = name;
  used = lents = withs = 0;
}

void with(const char *what, int64_t value) {
  if (withs == MOST_WITH) abort();
  numbers[withs].what = what;
  numbers[withs++].value = value;
}

static uint8_t *from_arena(int which, size_t size) {
  if (used + size + 2 * GUARD > ARENA) abort();
  return arenas[which].bytes + used + GUARD;
}

static lent *lend_kind(const void *bytes, size_t size, int is_state) {
  if (lents == MOST_LENT) abort();
  lent *l = &runs[lents++];
#ifdef SHORT
  if (!bytes && size) size--;
#endif
  l->size = size;
  l->is_state = is_state;
  l->reference = from_arena(1, size);
  l->before = from_arena(2, size);
#ifdef EXACT
  l->archive = malloc(size);
  if (!l->archive) abort();
#else
  l->archive = from_arena(0, size);
  memset(l->archive - GUARD, 0x5A, GUARD);
  memset(l->archive + size, 0xC3, GUARD);
#endif
  if (bytes) {
    if (size) memcpy(l->before, bytes, size);
  } else {
    uint32_t x = any32() | 1;
    for (size_t i = 0; i < size; i++) l->before[i] = (uint8_t)(x >> 24), x = x * 1664525u + 1013904223u;
  }
  if (size) memcpy(l->archive, l->before, size);
  if (size) memcpy(l->reference, l->before, size);
  used += (size + 2 * GUARD + 15) / 16 * 16;
  return l;
}

lent *lend(const void *bytes, size_t size) { return lend_kind(bytes, size, 0); }
lent *lend_state(const void *bytes, size_t size) { return lend_kind(bytes, size, 1); }

void give_back(void) {
#ifdef EXACT
  for (size_t i = 0; i < lents; i++) free(runs[i].archive);
#endif
  lents = 0;
}

static uint32_t archive_answer, reference_answer;

void differs(const char *why) {
  printf("difference: seed %llu, step %llu, %s(", (unsigned long long)seed, (unsigned long long)step, call_name);
  for (size_t i = 0; i < withs; i++) printf("%s%s %lld", i ? ", " : "", numbers[i].what, (long long)numbers[i].value);
  printf("): the archive answers %u, the reference %u: %s\n", (unsigned)archive_answer, (unsigned)reference_answer, why);
  for (size_t i = 0; i < lents; i++) {
    size_t n = runs[i].size < 48 ? runs[i].size : 48;
    printf("  lent %zu (%zu bytes): before", i, runs[i].size);
    for (size_t j = 0; j < n; j++) printf(" %02x", runs[i].before[j]);
    printf("\n    archive  ");
    for (size_t j = 0; j < n; j++) printf(" %02x", runs[i].archive[j]);
    if (!runs[i].is_state) printf("\n    reference");
    for (size_t j = 0; j < n && !runs[i].is_state; j++) printf(" %02x", runs[i].reference[j]);
    printf("\n");
  }
  exit(1);
}

static void guards(const lent *l) {
#ifdef EXACT
  (void)l;
#else
  for (size_t i = 0; i < GUARD; i++) {
    if (l->archive[i - GUARD] != 0x5A) differs("a byte before a lent run was written");
    if (l->archive[l->size + i] != 0xC3) differs("a byte after a lent run was written");
  }
#endif
}

void judge(uint32_t archive, uint32_t reference) {
  archive_answer = archive, reference_answer = reference;
  if (archive != reference) differs("another answer");
  for (size_t i = 0; i < lents; i++) {
    const lent *l = &runs[i];
    guards(l);
    if (l->size == 0) continue;
    if (!l->is_state && memcmp(l->archive, l->reference, l->size) != 0) differs("other lent memory");
    if (reference != 0 && memcmp(l->archive, l->before, l->size) != 0) differs("a refusal changed lent memory");
  }
}

/* ---- states ---- */

enum { PLACES = 1 << 14, MOST_STATE = 160 };
struct known { size_t size; uint8_t bytes[40], state[MOST_STATE]; };
static struct known by_bytes[3][PLACES], by_state[3][PLACES];

static size_t place_of(const uint8_t *bytes, size_t size) {
  uint32_t h = 2166136261u;
  for (size_t i = 0; i < size; i++) h = (h ^ bytes[i]) * 16777619u;
  return (h ^ h >> 15) % PLACES;
}

/* What was last seen at a place of either table; a later one takes its place. */
void same_state(int kind, const void *bytes, size_t size, const void *state, size_t state_size) {
  if (size > 40 || state_size > MOST_STATE) abort();
  struct known *b = &by_bytes[kind][place_of(bytes, size)], *s = &by_state[kind][place_of(state, state_size)];
  if (b->size && memcmp(b->bytes, bytes, size) == 0 && memcmp(b->state, state, state_size) != 0) differs("the same bytes for two states");
  if (s->size && memcmp(s->state, state, state_size) == 0 && memcmp(s->bytes, bytes, size) != 0) differs("two runs of bytes for one state");
  b->size = s->size = size;
  memcpy(b->bytes, bytes, size), memcpy(s->bytes, bytes, size);
  memcpy(b->state, state, state_size), memcpy(s->state, state, state_size);
}

int main(int argc, char **argv) {
  uint64_t steps = argc > 1 ? strtoull(argv[1], NULL, 10) : 5000000;
  seed = argc > 2 ? strtoull(argv[2], NULL, 10) : 1;
  chance_state = (seed + 1) * 0x9E3779B97F4A7C15u | 1;
  for (int i = 0; i < 16; i++) (void)any32();
  every_character();
  for (step = 1; step <= steps; step++) {
    switch (below(16)) {
    case 0: case 1: characters_step(); break;
    case 2: captures_step(); break;
    case 3: writer_step(); break;
    case 4: case 5: case 6: case 7: case 8: reader_step(); break;
    case 9: case 10: case 11: case 12: sender_step(); break;
    default: receiver_step(); break;
    }
  }
  printf("differential.c: ok, %llu steps, seed %llu\n", (unsigned long long)steps, (unsigned long long)seed);
  return 0;
}
