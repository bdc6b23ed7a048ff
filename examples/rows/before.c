int a[4]; int main(void) { int i = read_int(); printf("before\n"); int x = a[i]; printf("%d\n", x); return 0; }
