/* A chain of cases: a machine with a stack runs a loop that adds up squares. */
#include <stdio.h>

int code[32];
int stack[16];
int cells[4];
int end;

void put(int kind, int number) {
  code[2 * end] = kind;
  code[2 * end + 1] = number;
  end++;
}

int run(void) {
  int at = 0, top = 0, steps = 0;
  while (1) {
    int kind = code[2 * at], number = code[2 * at + 1];
    at++;
    steps++;
    if (kind == 0) {
      stack[top] = number;
      top++;
    } else if (kind == 1) {
      stack[top] = cells[number];
      top++;
    } else if (kind == 2) {
      top--;
      cells[number] = stack[top];
    } else if (kind == 3) {
      top--;
      stack[top - 1] += stack[top];
    } else if (kind == 4) {
      top--;
      stack[top - 1] *= stack[top];
    } else if (kind == 5) {
      top--;
      if (stack[top])
        at = number;
    } else {
      return steps;
    }
  }
}

int main(void) {
  put(0, 500); put(2, 0);
  put(1, 1); put(1, 0); put(1, 0); put(4, 0); put(3, 0); put(2, 1);
  put(1, 0); put(0, -1); put(3, 0); put(2, 0);
  put(1, 0); put(5, 2);
  put(6, 0);
  printf("%d steps\n", run());
  printf("%d\n", cells[1]);
  return 0;
}
