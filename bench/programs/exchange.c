/* Index checks: a row is sorted by exchanges of neighbours. */
#include <stdio.h>

int row[100];

int main(void) {
  int i, j, x = 1;
  for (i = 0; i < 100; i++) {
    x = (x * 75 + 74) % 65537;
    row[i] = x;
  }
  for (i = 0; i < 99; i++)
    for (j = 0; j < 99 - i; j++)
      if (row[j] > row[j + 1]) {
        int t = row[j];
        row[j] = row[j + 1];
        row[j + 1] = t;
      }
  for (i = 0; i < 100; i += 25)
    printf("%d ", row[i]);
  printf("\n");
  return 0;
}
