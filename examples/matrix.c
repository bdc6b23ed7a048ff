#include <stdio.h>
int a[256];
int b[256];
int c[256];

void fill(void) {
  int i;
  int j;
  for (i = 0; i < 16; i++)
    for (j = 0; j < 16; j++) {
      a[16 * i + j] = i + j;
      b[16 * i + j] = i * j;
    }
}

int main(void) {
  int i;
  int j;
  int k;
  fill();
  for (i = 0; i < 16; i++)
    for (j = 0; j < 16; j++) {
      int s = 0;
      for (k = 0; k < 16; k++)
        s += a[16 * i + k] * b[16 * k + j];
      c[16 * i + j] = s;
    }
  for (i = 0; i < 16; i++)
    printf("%d\n", c[17 * i]);
  return 0;
}
