void num(unsigned n) { if (n >= 10u) num(n / 10u); putchar((int)(n % 10u) + 48); }
void show(int n) { if (n < 0) { putchar('-'); num(-(unsigned)n); } else num((unsigned)n); putchar(10); }
int a[50]; unsigned seed = 12345u; int rnd(void) { seed = seed * 1103515245u + 12345u; return (int)(seed >> 16 & 32767u); }
void sort(int *p, int n) { int i; int j; int t; if (n < 2) return; t = p[n / 2]; i = 0; j = n - 1; while (i <= j) { while (p[i] < t) i++; while (p[j] > t) j--; if (i <= j) { int x; x = p[i]; p[i] = p[j]; p[j] = x; i++; j--; } } sort(p, j + 1); sort(p + i, n - i); }
int main(void) { int i; for (i = 0; i < 50; i++) a[i] = rnd(); sort(a, 50); for (i = 0; i < 50; i += 7) show(a[i]); return 0; }