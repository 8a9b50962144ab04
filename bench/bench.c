/* The same jobs through the archive and in plain C. bench list: the rows. bench check: every form of a row must leave the same outputs. bench run ROW FORM N: N
 * rounds, for counting. bench time: seconds. One translation unit. */
#include "plain/characters.c"
#include "plain/captures.c"
#include "plain/packet_writer.c"
#include "plain/packet_reader.c"
#include "plain/retry.c"
#include "inputs.c"
#include "jobs.c"
#include "retry_jobs.c"
#include "agree.c"
#include <stdio.h>
#include <stdlib.h>
#include <time.h>

enum { OURS, PROMISE, TRUSTING, FORMS };

/* A row: its forms (0 where there is none), how many units one round has, and the rounds of one count. */
typedef struct row {
  const char *name, *unit;
  void (*forms[FORMS])(void);
  size_t units, rounds;
} row;

static const row rows[] = {
#include "rows.h"
};

#define ROWS (sizeof rows / sizeof rows[0])
static const char *const form_names[FORMS] = {"ours", "promise", "trusting"};

static int check(void) {
  int bad = 0;
  for (size_t i = 0; i < ROWS; i++)
    for (size_t f = 0; f < FORMS; f++) {
      static outputs first;
      if (!rows[i].forms[f]) continue;
      clear();
      rows[i].forms[f]();
      if (refused) {
        printf("bench: %s, %s: a call was refused\n", rows[i].name, form_names[f]);
        return 1;
      }
      if (f == 0) first = out;
      else if (rows[i].forms[0] && memcmp(&first, &out, sizeof out)) {
        printf("bench: %s: %s differs from ours\n", rows[i].name, form_names[f]);
        bad = 1;
      }
    }
  return bad;
}

static double seconds_of(void (*form)(void), size_t rounds) {
  double best = 1e9;
  for (int k = 0; k < 5; k++) {
    struct timespec a, b;
    timespec_get(&a, TIME_UTC);
    for (size_t i = 0; i < rounds; i++) form();
    timespec_get(&b, TIME_UTC);
    double s = (double)(b.tv_sec - a.tv_sec) + 1e-9 * (double)(b.tv_nsec - a.tv_nsec);
    if (s < best) best = s;
  }
  return best / (double)rounds;
}

/* Nanoseconds of a unit, the best of five of about as much work each. */
static void times(void) {
  for (size_t i = 0; i < ROWS; i++) {
    printf("%zu", i);
    for (size_t f = 0; f < FORMS; f++) {
      void (*form)(void) = rows[i].forms[f];
      printf(form ? " %.2f" : " -", form ? 1e9 * seconds_of(form, 40 * rows[i].rounds) / (double)rows[i].units : 0.0);
    }
    printf("\n");
  }
}

int main(int argc, char **argv) {
  plain_tables();
  make_inputs();
  if (argc == 2 && !strcmp(argv[1], "list")) {
    for (size_t i = 0; i < ROWS; i++) {
      printf("%zu:%zu:%zu:", i, rows[i].units, rows[i].rounds);
      for (size_t f = 0; f < FORMS; f++) printf("%d", rows[i].forms[f] != 0);
      printf(":%s:%s\n", rows[i].unit, rows[i].name);
    }
    return 0;
  }
  if (argc == 2 && !strcmp(argv[1], "check")) return check() | agree();
  if (argc == 2 && !strcmp(argv[1], "time")) {
    times();
    return 0;
  }
  if (argc != 5 || strcmp(argv[1], "run")) {
    fprintf(stderr, "bench list | check | time | run ROW FORM N\n");
    return 2;
  }
  void (*form)(void) = rows[(size_t)atoi(argv[2]) % ROWS].forms[(size_t)atoi(argv[3]) % FORMS];
  for (long n = atol(argv[4]); n > 0; n--) form();
  return refused;
}
