/* A state machine: 1 opens a bracket, 2 closes it, 0 begins a comment that goes on to the next 0. Prints the greatest depth, or
   where the first bracket too many is closed, and whether all is closed in the end. */
#include <stdio.h>

int main(void) {
  int depth = 0, deepest = 0, place = 0, comment = 0;
  while (more_input()) {
    int symbol = read_int();
    place++;
    if (symbol == 0) {
      comment = !comment;
    } else if (comment) {
      continue;
    } else if (symbol == 1) {
      depth++;
      deepest = depth > deepest ? depth : deepest;
    } else if (symbol == 2) {
      if (depth == 0) {
        printf("closed too early at %d\n", place);
        return 1;
      }
      depth--;
    }
  }
  printf("deepest %d\n", deepest);
  if (depth != 0 || comment)
    printf("left open\n");
  return depth;
}
