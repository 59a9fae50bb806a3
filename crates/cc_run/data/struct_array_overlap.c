void num(unsigned n) { if (n >= 10u) num(n / 10u); putchar((int)(n % 10u) + 48); }
void show(int n) { if (n < 0) { putchar('-'); num(-(unsigned)n); } else num((unsigned)n); putchar(10); }
struct s { int a; int b; }; struct t { struct s s; int c; struct s t; } v;
int main(void) { struct s *p; struct s *q; v.s.a = 1; v.s.b = 2; v.c = 3; v.t.a = 4; v.t.b = 5; p = &v.s; q = &v.t; *(p + 1) = *q; show(v.c); show(v.t.a); show(v.t.b); return 0; }