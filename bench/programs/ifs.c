/* A string of ifs: numbers in a row are counted by their size. */
#include <stdio.h>

int counts[8];

int main(void) {
  int i, x = 1;
  for (i = 0; i < 2000; i++) {
    x = (x * 1103 + 12345) & 65535;
    if (x < 100) counts[0]++;
    if (x < 1000) counts[1]++;
    if (x < 10000) counts[2]++;
    if (x >= 10000 && x < 20000) counts[3]++;
    if (x >= 20000 && x < 40000) counts[4]++;
    if (x >= 40000) counts[5]++;
    if (x % 2 == 0) counts[6]++;
    if (x & 4 || x & 8) counts[7]++;
  }
  for (i = 0; i < 8; i++)
    printf("%d ", counts[i]);
  printf("\n");
  return 0;
}
