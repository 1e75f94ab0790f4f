#include <stdio.h>
#include <stdlib.h>
#include <cilk/cilk.h>

#define N 16

void mm(const double *A, const double *B, double *restrict C, int n) {
  cilk_for (int i = 0; i < n; i++) {
    for (int j = 0; j < n; j++) {
      double sum = 0;
      for (int k = 0; k < n; k++) {
        sum += A[i * n + k] * B[k * n + j];
      }
      C[i * n + j] = sum;
    }
  }
}

int main(void) {
  double *A = (double *)malloc(N * N * sizeof(double));
  double *B = (double *)malloc(N * N * sizeof(double));
  double *C = (double *)calloc(N * N, sizeof(double));
  for (int i = 0; i < N * N; i++) {
    A[i] = i;
    B[i] = i + 1;
  }
  mm(A, B, C, N);
  printf("%f\n", C[0]);
  free(A);
  free(B);
  free(C);
  return 0;
}
