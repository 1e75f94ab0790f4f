#include <stdio.h>
#include <stdlib.h>
#include <cilk/cilk.h>

#define X(M, row, col) (M + ((row) * n_##M + (col)) * n)

void mm_base(double *restrict C, int n_C, double *restrict A, int n_A,
             double *restrict B, int n_B, int n) {
  for (int i = 0; i < n; ++i)
    for (int k = 0; k < n; ++k)
      for (int j = 0; j < n; ++j)
        C[i * n_C + j] += A[i * n_A + k] * B[k * n_B + j];
}

void mm_dac(double *restrict C, int n_C, double *restrict A, int n_A,
            double *restrict B, int n_B, int n) {
  if (n <= 4) {
    mm_base(C, n_C, A, n_A, B, n_B, n);
  } else {
    n /= 2;
    cilk_scope {
      cilk_spawn mm_dac(X(C, 0, 0), n_C, X(A, 0, 0), n_A, X(B, 0, 0), n_B, n);
      cilk_spawn mm_dac(X(C, 0, 1), n_C, X(A, 0, 0), n_A, X(B, 0, 1), n_B, n);
      cilk_spawn mm_dac(X(C, 1, 0), n_C, X(A, 1, 0), n_A, X(B, 0, 0), n_B, n);
      mm_dac(X(C, 1, 1), n_C, X(A, 1, 0), n_A, X(B, 0, 1), n_B, n);
    }
    cilk_scope {
      cilk_spawn mm_dac(X(C, 0, 0), n_C, X(A, 0, 1), n_A, X(B, 1, 0), n_B, n);
      cilk_spawn mm_dac(X(C, 0, 1), n_C, X(A, 0, 1), n_A, X(B, 1, 1), n_B, n);
      cilk_spawn mm_dac(X(C, 1, 0), n_C, X(A, 1, 1), n_A, X(B, 1, 0), n_B, n);
      mm_dac(X(C, 1, 1), n_C, X(A, 1, 1), n_A, X(B, 1, 1), n_B, n);
    }
  }
}

int main(int argc, char **argv) {
  int n = atoi(argv[1]);
  double *C = calloc(n * n, sizeof(double));
  double *A = malloc(n * n * sizeof(double));
  double *B = malloc(n * n * sizeof(double));
  for (int i = 0; i < n * n; ++i) {
    A[i] = 1.0;
    B[i] = 2.0;
  }
  mm_dac(C, n, A, n, B, n, n);
  printf("%f\n", C[0]);
  return 0;
}
