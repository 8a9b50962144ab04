/* How the tests of single calls check, and what they lend beside their own. */
#include "buzzgarland.h"
#include <stdio.h>
#include <string.h>

static int failures;

#define CHECK(c) do { if (!(c)) { printf("%s:%d: %s\n", __FILE__, __LINE__, #c); failures++; } } while (0)

/* The states and the numbers that a call is lent; `m` is a struct that begins with them, `before` another. */
#define LENT buzz_reader reader; buzz_sender sender; buzz_receiver receiver; int32_t disparity; uint32_t a, b, c, d, e, f; size_t n;

/* A call that must be refused with the number and leave all as it stood. */
#define REFUSED(number, call) do { before = m; CHECK((call) == (number)); CHECK(memcmp(&before, &m, sizeof m) == 0); } while (0)
