/* Quotients and rests: greatest common divisors, sums of digits, and what has no divisor. */
#include <stdio.h>

int common(int a, int b) {
  while (b) {
    int rest = a % b;
    a = b;
    b = rest;
  }
  return a;
}

int digits(int number) {
  int sum = 0;
  while (number > 0) {
    sum += number % 10;
    number /= 10;
  }
  return sum;
}

int is_prime(int number) {
  int d;
  for (d = 2; d * d <= number; d++)
    if (number % d == 0)
      return 0;
  return number > 1;
}

int main(void) {
  int i, j, t = 0;
  for (i = 1; i < 30; i++)
    for (j = 1; j < 30; j++)
      t += common(i, j);
  for (i = 0; i < 500; i++) {
    t += digits(i * 7919);
    if (is_prime(i))
      t++;
  }
  printf("%d\n", t);
  return 0;
}
