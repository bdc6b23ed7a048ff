/* Searches of a row: halving it, and from its front. */
#include <stdio.h>

int row[512];

int by_halves(int wanted) {
  int low = 0, high = 512;
  while (low < high) {
    int middle = (low + high) / 2;
    if (row[middle] == wanted)
      return middle;
    if (row[middle] < wanted)
      low = middle + 1;
    else
      high = middle;
  }
  return -1;
}

int from_front(int wanted) {
  int i = 0;
  while (i < 512 && row[i] != wanted)
    i++;
  return i < 512 ? i : -1;
}

int main(void) {
  int i, found = 0;
  for (i = 0; i < 512; i++)
    row[i] = 3 * i + 1;
  for (i = 0; i < 300; i++)
    if (by_halves(5 * i) >= 0)
      found++;
  for (i = 0; i < 50; i++)
    found += from_front(29 * i) >= 0;
  printf("%d\n", found);
  return 0;
}
