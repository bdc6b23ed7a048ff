int f(int n) { if (n <= 1) return 1; return 1 + f(n - 1); } int main(void) { printf("%d\n", f(read_int())); return 0; }
