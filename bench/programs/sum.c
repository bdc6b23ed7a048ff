/* Sums over an array. */
#include <stdio.h>

int a[1000];

int sum(int count) {
  int i, s = 0;
  for (i = 0; i < count; i++)
    s += a[i];
  return s;
}

int main(void) {
  int i, t = 0;
  for (i = 0; i < 1000; i++)
    a[i] = i * i;
  for (i = 0; i < 10; i++)
    t += sum(1000);
  printf("%d\n", t);
  return 0;
}
