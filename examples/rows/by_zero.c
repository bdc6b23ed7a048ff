int main(void) { printf("a\n"); printf("b\n"); printf("%d\n", 10 / read_int()); return 0; }
