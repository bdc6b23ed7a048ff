/* Means of neighbours on a board of 32 by 32, in turns between two boards. */
#include <stdio.h>

int old[1024];
int new[1024];

int main(void) {
  int turn, i, j;
  for (i = 0; i < 32; i++)
    for (j = 0; j < 32; j++)
      old[32 * i + j] = i == 0 ? 1000 : 0;
  for (turn = 0; turn < 8; turn++) {
    for (i = 1; i < 31; i++)
      for (j = 1; j < 31; j++)
        new[32 * i + j] = (old[32 * i + j - 1] + old[32 * i + j + 1] + old[32 * (i - 1) + j] + old[32 * (i + 1) + j]) >> 2;
    for (i = 1; i < 31; i++)
      for (j = 1; j < 31; j++)
        old[32 * i + j] = new[32 * i + j];
  }
  printf("%d %d\n", old[33], old[32 * 16 + 16]);
  return 0;
}
