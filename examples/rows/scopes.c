int main(void) { int x; x = 1; { int x; x = 2; } printf("%d %d\n", x, 1 << 33); return 3; }
