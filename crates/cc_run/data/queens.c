void num(unsigned n) { if (n >= 10u) num(n / 10u); putchar((int)(n % 10u) + 48); }
void show(int n) { if (n < 0) { putchar('-'); num(-(unsigned)n); } else num((unsigned)n); putchar(10); }
int col[8]; int n; int ok(int r, int c) { int i; for (i = 0; i < r; i++) if (col[i] == c || col[i] - c == i - r || col[i] - c == r - i) return 0; return 1; }
void place(int r) { int c; if (r == 6) { n++; return; } for (c = 0; c < 6; c++) if (ok(r, c)) { col[r] = c; place(r + 1); } } int main(void) { place(0); show(n); return n; }