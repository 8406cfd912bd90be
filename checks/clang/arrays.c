/* Arrays in memory, loops over them, and a table of constants. */
static const unsigned primes[6] = {2, 3, 5, 7, 11, 13};
int counters[16];

long sum(const int *items, long count) {
  long total = 0;
  for (long i = 0; i < count; i++)
    total += items[i];
  return total;
}

void reverse(unsigned char *bytes, unsigned count) {
  for (unsigned i = 0; i < count / 2; i++) {
    unsigned char kept = bytes[i];
    bytes[i] = bytes[count - 1 - i];
    bytes[count - 1 - i] = kept;
  }
}

unsigned prime(unsigned place) { return place < 6 ? primes[place] : 0; }

void clear(void) {
  for (int i = 0; i < 16; i++)
    counters[i] = 0;
}
