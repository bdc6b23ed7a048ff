int seen[8];

int main(void) {
    int n;
    int last = 0;
    int sum = 0;
    int way = 0;
    while (more_input()) {
        n = read_int();
        sum = sum + n * n;
        way = way + (n - last) * (n - last);
        last = n;
        if (n < 0)
            n = 0;
        seen[n & 7] = seen[n & 7] + 1;
    }
    printf("%d %d %d\n", sum, way, seen[3]);
    return 0;
}
