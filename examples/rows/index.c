int a[10]; int main(void) { int i = read_int(); a[9] = 4; printf("%d\n", a[i]); return 0; }
