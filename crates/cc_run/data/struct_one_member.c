void num(unsigned n) { if (n >= 10u) num(n / 10u); putchar((int)(n % 10u) + 48); }
void show(int n) { if (n < 0) { putchar('-'); num(-(unsigned)n); } else num((unsigned)n); putchar(10); }
struct a { int x; }; struct b { struct a a; }; struct c { struct b b[1]; }; struct d { struct c c; char k; } g, h;
int main(void) { g.c.b[0].a.x = 77; g.k = 'k'; h = g; show(h.c.b[0].a.x); putchar(h.k); h.c.b[0].a.x = 5; g.c = h.c; show(g.c.b[0].a.x); return 0; }