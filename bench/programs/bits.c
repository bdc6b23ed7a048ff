/* Shifts and masks: a check sum of 16 bits over a row, and the ones of its numbers. */
#include <stdio.h>

int row[128];

int main(void) {
  int i, j, sum = 65535, ones = 0;
  for (i = 0; i < 128; i++)
    row[i] = (i * 167 + 13) & 255;
  for (i = 0; i < 128; i++) {
    int x = row[i];
    sum ^= x << 8;
    for (j = 0; j < 8; j++) {
      if (sum & 32768)
        sum = (sum << 1) ^ 4129;
      else
        sum = sum << 1;
      sum &= 65535;
    }
    while (x) {
      ones += x & 1;
      x >>= 1;
    }
  }
  printf("%d %d\n", sum, ones);
  return 0;
}
