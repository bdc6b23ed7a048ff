/* Smooths numbers with weights: each becomes the weighted sum of itself and those behind it, divided by the sum of the weights. The
   filter is called with two arrays, so that the numbers stay, and then with one array twice, so that the sums take their place. */
#include <stdio.h>

int weights[8];
int heard[264];

void filter(int to[], int from[], int by[], int count, int taps) {
  int total = 0;
  int i;
  int k;
  for (k = 0; k < taps; k++)
    total += by[k];
  for (i = 0; i < count; i++) {
    int sum = 0;
    for (k = 0; k < taps; k++)
      sum += by[k] * from[i + k];
    to[i] = sum / total;
  }
}

int checksum(int row[], int count) {
  int sum = 0;
  int i;
  for (i = 0; i < count; i++)
    sum = sum * 31 + row[i];
  return sum;
}

int main(void) {
  int smooth[256];
  int state = 1;
  int i;
  for (i = 0; i < 8; i++)
    weights[i] = (i + 1) * (8 - i);
  for (i = 0; i < 264; i++) {
    state = state * 1103515245 + 12345;
    heard[i] = state / 65536 % 1000;
  }
  filter(smooth, heard, weights, 256, 8);
  printf("%d\n", checksum(smooth, 256));
  filter(heard, heard, weights, 256, 8);
  printf("%d\n", checksum(heard, 256));
  filter(heard, heard, weights, 256, 4);
  printf("%d\n", checksum(heard, 256));
  return 0;
}
