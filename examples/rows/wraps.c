int main(void) { printf("%d\n", 2147483647 + 1); return 0; }
