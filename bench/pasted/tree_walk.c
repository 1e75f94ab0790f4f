#include <stdio.h>
#include <stdlib.h>
#include <cilk/cilk.h>

typedef struct node {
  struct node *left;
  struct node *right;
  int value;
} node;

int has_property(node *x) {
  return x->value % 3 == 0;
}

long walk(node *x) {
  if (!x)
    return 0;
  long count = has_property(x);
  long left, right;
  left = cilk_spawn walk(x->left);
  right = walk(x->right);
  cilk_sync;
  return count + left + right;
}

node *build(int depth, int value) {
  if (depth == 0)
    return NULL;
  node *x = malloc(sizeof(node));
  x->value = value;
  x->left = build(depth - 1, 2 * value);
  x->right = build(depth - 1, 2 * value + 1);
  return x;
}

int main(int argc, char *argv[]) {
  int depth = argc > 1 ? atoi(argv[1]) : 10;
  node *root = build(depth, 1);
  printf("%ld\n", walk(root));
  return 0;
}
