/* Reads numbers until the input ends, at most 1000. Sorts a copy of them, prints it, one number a line, and then sorts them where
   they stand: the sort is called with two arrays, and with one array twice. Returns how many numbers are the same in both. */
#include <stdio.h>

int numbers[1000];

/* sorts the numbers from low to high: the shorter part by a call, the longer one in the loop, so that few calls are active at a time */
void quicksort(int row[], int low, int high) {
  while (low < high) {
    int middle = row[low + (high - low) / 2];
    int left = low;
    int right = high;
    while (left <= right) {
      while (row[left] < middle)
        left++;
      while (middle < row[right])
        right--;
      if (left <= right) {
        int kept = row[left];
        row[left] = row[right];
        row[right] = kept;
        left++;
        right--;
      }
    }
    if (right - low < high - left) {
      quicksort(row, low, right);
      low = left;
    } else {
      quicksort(row, left, high);
      high = right;
    }
  }
}

/* puts the first numbers of one array into another, sorted; both may be one array */
void sort(int from[], int to[], int count) {
  int i;
  for (i = 0; i < count; i++)
    to[i] = from[i];
  quicksort(to, 0, count - 1);
}

int main(void) {
  int copy[1000];
  int count = 0;
  int same = 0;
  int i;
  while (count < 1000 && more_input()) {
    numbers[count] = read_int();
    count++;
  }
  sort(numbers, copy, count);
  for (i = 0; i < count; i++)
    printf("%d\n", copy[i]);
  sort(numbers, numbers, count);
  for (i = 0; i < count; i++)
    same += numbers[i] == copy[i];
  return same;
}
