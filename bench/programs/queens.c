/* Recursion: in how many ways six queens stand on a board without a fight. */
#include <stdio.h>

int column[6];

int is_free(int row, int at) {
  int i;
  for (i = 0; i < row; i++) {
    int away = column[i] - at;
    if (away == 0 || away == row - i || away == i - row)
      return 0;
  }
  return 1;
}

int ways(int row) {
  int at, found = 0;
  if (row == 6)
    return 1;
  for (at = 0; at < 6; at++)
    if (is_free(row, at)) {
      column[row] = at;
      found += ways(row + 1);
    }
  return found;
}

int main(void) {
  printf("%d\n", ways(0));
  return 0;
}
