/* Products by numbers: a hash of a row, and a polynomial. */
#include <stdio.h>

int row[256];

int hash(int count) {
  int i, h = 7;
  for (i = 0; i < count; i++)
    h = h * 31 + row[i] * 8;
  return h;
}

int polynomial(int x) {
  return ((3 * x - 7) * x + 100) * x - 1000;
}

int main(void) {
  int i, t = 0;
  for (i = 0; i < 256; i++)
    row[i] = i * 5 % 97;
  for (i = 0; i < 10; i++)
    t ^= hash(256);
  for (i = 0; i < 500; i++)
    t += polynomial(i);
  printf("%d\n", t);
  return 0;
}
