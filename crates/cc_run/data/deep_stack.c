void num(unsigned n) { if (n >= 10u) num(n / 10u); putchar((int)(n % 10u) + 48); }
void show(int n) { if (n < 0) { putchar('-'); num(-(unsigned)n); } else num((unsigned)n); putchar(10); }
int d(int n) { char pad[40]; pad[n % 40] = n; if (n == 0) return 0; return d(n - 1) + pad[n % 40] % 2; } int main(void) { show(d(1500)); return 0; }