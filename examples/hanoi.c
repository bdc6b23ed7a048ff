/* Moves a tower of as many discs as the input says from peg 1 to peg 3, by recursion. */
#include <stdio.h>

int moves;

void move(int discs, int from, int to, int by) {
  if (discs == 0)
    return;
  move(discs - 1, from, by, to);
  moves++;
  printf("%d: disc %d from %d to %d\n", moves, discs, from, to);
  move(discs - 1, by, to, from);
}

int main(void) {
  move(read_int(), 1, 3, 2);
  printf("%d moves\n", moves);
  return 0;
}
