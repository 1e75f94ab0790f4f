#include <stdio.h>
#include <stdlib.h>
#include <cilk/cilk.h>
#include <cilk/opadd_reducer.h>

#define BINS 16

unsigned long cilk_reducer(cilk_zero, cilk_add) total = 0;

void histogram(const unsigned char *data, size_t n, long *bins) {
  cilk_for (size_t i = 0; i < n; ++i) {
    bins[data[i] & (BINS - 1)]++;
    total += data[i];
  }
}

int main(int argc, char *argv[]) {
  size_t n = argc > 1 ? atol(argv[1]) : 10000;
  unsigned char *data = malloc(n);
  long bins[BINS] = {0};
  cilk_for (size_t i = 0; i < n; i++)
    data[i] = (i * 31) & 0xff;
  histogram(data, n, bins);
  for (int i = 0; i < BINS; i++)
    printf("%d: %ld\n", i, bins[i]);
  printf("total %lu\n", total);
  return 0;
}
