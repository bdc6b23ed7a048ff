/* The game of life on a torus of 48 by 48, 20 generations. */
#include <stdio.h>

int now[2304];
int then[2304];
int seed = 13;

int next(void) {
  seed = seed * 1103515245 + 12345;
  return (seed >> 16) & 0x7fff;
}

void generation(void) {
  int r;
  int c;
  for (r = 0; r < 48; r++) {
    int up = 48 * (r == 0 ? 47 : r - 1);
    int at = 48 * r;
    int down = 48 * (r == 47 ? 0 : r + 1);
    for (c = 0; c < 48; c++) {
      int w = c == 0 ? 47 : c - 1;
      int e = c == 47 ? 0 : c + 1;
      int s = now[up + w] + now[up + c] + now[up + e] + now[at + w] + now[at + e] + now[down + w] + now[down + c] + now[down + e];
      if (now[at + c])
        then[at + c] = s == 2 || s == 3;
      else
        then[at + c] = s == 3;
    }
  }
  for (r = 0; r < 2304; r++)
    now[r] = then[r];
}

int main(void) {
  int i;
  int g;
  for (i = 0; i < 2304; i++)
    now[i] = next() % 3 == 0;
  for (g = 0; g < 20; g++) {
    generation();
    if (g % 5 == 4) {
      int alive = 0;
      int sum = 0;
      for (i = 0; i < 2304; i++) {
        alive += now[i];
        sum = sum * 3 + now[i];
      }
      printf("%d %d\n", alive, sum);
    }
  }
  return 0;
}
