void num(unsigned n) { if (n >= 10u) num(n / 10u); putchar((int)(n % 10u) + 48); }
void show(int n) { if (n < 0) { putchar('-'); num(-(unsigned)n); } else num((unsigned)n); putchar(10); }
int g; void set(int v) { g = v; } int main(void) { set(3); show(g); g = (set(4), g + 1); show(g); if (g, 0) show(1); else show(2); for (set(0); g < 3; set(g + 1)) show(g); return g; }