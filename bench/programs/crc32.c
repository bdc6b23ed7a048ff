/* Check sums: CRC-32 of 6,000 bytes held as numbers, bit by bit and by a table. */
#include <stdio.h>

int data[6000];
int table[256];
int seed = 1234;

int next(void) {
  seed = seed * 1103515245 + 12345;
  return (seed >> 16) & 0xff;
}

int bitwise(int n) {
  int crc = -1;
  int i;
  int k;
  for (i = 0; i < n; i++) {
    crc = crc ^ data[i];
    for (k = 0; k < 8; k++) {
      if (crc & 1)
        crc = ((crc >> 1) & 0x7fffffff) ^ -306674912;
      else
        crc = (crc >> 1) & 0x7fffffff;
    }
  }
  return ~crc;
}

void make(void) {
  int i;
  int k;
  for (i = 0; i < 256; i++) {
    int c = i;
    for (k = 0; k < 8; k++)
      c = ((c >> 1) & 0x7fffffff) ^ (-306674912 & -(c & 1));
    table[i] = c;
  }
}

int tabled(int n) {
  int crc = -1;
  int i;
  for (i = 0; i < n; i++)
    crc = table[(crc ^ data[i]) & 0xff] ^ ((crc >> 8) & 0xffffff);
  return ~crc;
}

int main(void) {
  int i;
  for (i = 0; i < 9; i++)
    data[i] = 49 + i;
  printf("%d\n", bitwise(9));
  for (i = 0; i < 6000; i++)
    data[i] = next();
  make();
  int a = bitwise(6000);
  int b = tabled(6000);
  printf("%d %d %d\n", a, b, a == b);
  return 0;
}
