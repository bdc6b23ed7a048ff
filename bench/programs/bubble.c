/* Two sorts of 400 numbers: by bubbles with an early end, and by insertion. */
#include <stdio.h>

int a[400];
int b[400];
int seed = 17;

int next(void) {
  seed = seed * 1103515245 + 12345;
  return (seed >> 16) & 0x7fff;
}

int main(void) {
  int i;
  int j;
  int n = 400;
  int swaps = 0;
  int moves = 0;
  for (i = 0; i < n; i++) {
    int v = next();
    a[i] = v;
    b[i] = v ^ 0x155;
  }
  int again = 1;
  int end = n - 1;
  while (again) {
    again = 0;
    for (j = 0; j < end; j++) {
      if (a[j] > a[j + 1]) {
        int t = a[j];
        a[j] = a[j + 1];
        a[j + 1] = t;
        swaps++;
        again = 1;
      }
    }
    end--;
  }
  for (i = 1; i < n; i++) {
    int v = b[i];
    j = i - 1;
    while (j >= 0 && b[j] > v) {
      b[j + 1] = b[j];
      j--;
      moves++;
    }
    b[j + 1] = v;
  }
  int bad = 0;
  for (i = 1; i < n; i++)
    if (a[i - 1] > a[i] || b[i - 1] > b[i])
      bad++;
  printf("%d %d %d\n", swaps, moves, bad);
  printf("%d %d %d %d\n", a[0], a[200], a[399], b[100]);
  return 0;
}
