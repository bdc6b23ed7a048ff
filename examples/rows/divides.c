int main(void) { int x = read_int(); int y = read_int(); printf("%d %d\n", x / y, x % y); return 0; }
