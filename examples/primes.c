/* The primes below 100, by the sieve, ten to a line. */
#include <stdio.h>

int crossed[100];

int main(void) {
  int i, j, found = 0;
  for (i = 2; i < 100; i++) {
    if (crossed[i])
      continue;
    for (j = i * i; j < 100; j += i)
      crossed[j] = 1;
    found++;
    printf("%d", i);
    if (found % 10 == 0)
      printf("\n");
    else
      printf(" ");
  }
  printf("\n");
  return found;
}
