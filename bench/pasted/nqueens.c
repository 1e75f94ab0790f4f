#include <stdio.h>
#include <stdlib.h>
#include <string.h>
#include <alloca.h>
#include <cilk/cilk.h>

/* Returns 1 if none of the queens conflict. */
int ok(int n, char *a) {
  for (int i = 0; i < n; i++) {
    char p = a[i];
    for (int j = i + 1; j < n; j++) {
      char q = a[j];
      if (q == p || q == p - (j - i) || q == p + (j - i))
        return 0;
    }
  }
  return 1;
}

int nqueens(int n, int row, char *board) {
  if (n == row)
    return 1;
  int *count = alloca(n * sizeof(int));
  memset(count, 0, n * sizeof(int));
  cilk_scope {
    for (int i = 0; i < n; i++) {
      char *b = alloca((row + 1) * sizeof(char));
      memcpy(b, board, row * sizeof(char));
      b[row] = i;
      if (ok(row + 1, b))
        count[i] = cilk_spawn nqueens(n, row + 1, b);
    }
  }
  int solutions = 0;
  for (int i = 0; i < n; i++)
    solutions += count[i];
  return solutions;
}

int main(int argc, char *argv[]) {
  int n = atoi(argv[1]);
  char *a = alloca(n * sizeof(char));
  int res = nqueens(n, 0, a);
  printf("Total number of solutions: %d\n", res);
  return 0;
}
