/* The header compiles as C++ and a call links. */
#include "buzzgarland.h"
int main() {
  buzz_reader reader;
  return static_cast<int>(buzz_reader_fresh(8, &reader));
}
