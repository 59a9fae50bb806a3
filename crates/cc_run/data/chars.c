void num(unsigned n) { if (n >= 10u) num(n / 10u); putchar((int)(n % 10u) + 48); }
void show(int n) { if (n < 0) { putchar('-'); num(-(unsigned)n); } else num((unsigned)n); putchar(10); }
char g = -1; char t[4] = "abc"; unsigned u;
int main(void) { char c; register char r; c = 200; show(c); r = 300; show(r); r++; show(r); c += 100; show(c); c -= 200; show(c); u = g; show((int)(u >> 24)); show((char)511); show((char)-129); t[1]++; --t[2]; putchar(t[0]); putchar(t[1]); putchar(t[2]); c = c * c; show(c); r = -r; show(r); show(r >> 1); show(sizeof c); return 0; }