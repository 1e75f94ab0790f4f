#include <stdio.h>
#include <stdlib.h>
#include <stdint.h>
#include <cilk/cilk.h>

int64_t fib(int64_t n) {
  if (n < 2)
    return n;
  int64_t x, y;
  cilk_scope {
    x = cilk_spawn fib(n - 1);
    y = fib(n - 2);
  }
  return x + y;
}

int main(int argc, char *argv[]) {
  if (argc != 2) {
    fprintf(stderr, "Usage: %s <n>\n", argv[0]);
    exit(1);
  }
  int64_t n = atoi(argv[1]);
  int64_t result = fib(n);
  printf("Fibonacci of %ld is %ld.\n", n, result);
  return 0;
}
