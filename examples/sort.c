/* Reads numbers until the input ends, at most 1000, sorts them and prints them, one a line. */
#include <stdio.h>

int numbers[1000];
int count;

void insert(int number) {
  int place = count;
  while (place > 0 && numbers[place - 1] > number) {
    numbers[place] = numbers[place - 1];
    place--;
  }
  numbers[place] = number;
  count++;
}

int main(void) {
  int i;
  while (count < 1000 && more_input())
    insert(read_int());
  for (i = 0; i < count; i++)
    printf("%d\n", numbers[i]);
  return count;
}
