/* A filter of 32 taps with saturation over 2,048 samples. */
#include <stdio.h>

int x[2080];
int y[2048];
int h[32];
int seed = 7;

int next(void) {
  seed = seed * 1103515245 + 12345;
  return (seed >> 16) & 0x7fff;
}

int main(void) {
  int n;
  int k;
  int sum = 0;
  int peak = 0;
  int clipped = 0;
  for (k = 0; k < 32; k++) {
    int d = k < 16 ? k + 1 : 32 - k;
    h[k] = (k & 3) == 3 ? -(d * 53) : d * 97;
  }
  for (n = 0; n < 2080; n++)
    x[n] = next() - 16384;
  for (n = 0; n < 2048; n++) {
    int acc = 0;
    for (k = 0; k < 32; k++)
      acc += h[k] * x[n + 31 - k];
    acc = acc >> 14;
    if (acc > 4095) {
      acc = 4095;
      clipped++;
    } else if (acc < -4096) {
      acc = -4096;
      clipped++;
    }
    y[n] = acc;
  }
  for (n = 0; n < 2048; n++) {
    int m = y[n] < 0 ? -y[n] : y[n];
    if (m > peak)
      peak = m;
    sum = sum * 17 + y[n];
  }
  printf("%d %d %d %d\n", y[0], y[1000], y[2047], clipped);
  printf("peak %d sum %d\n", peak, sum);
  return 0;
}
