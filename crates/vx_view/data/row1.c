int main(void) {
  printf("%d\n", 2 + 3);
  return 0;
}
