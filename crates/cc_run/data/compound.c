void num(unsigned n) { if (n >= 10u) num(n / 10u); putchar((int)(n % 10u) + 48); }
void show(int n) { if (n < 0) { putchar('-'); num(-(unsigned)n); } else num((unsigned)n); putchar(10); }
int a[3] = {5, 6, 7}; int n; int k(void) { n++; return n % 3; } unsigned u = 10u; char c = 10;
int main(void) { a[k()] += 10; a[k()] -= 3; a[k()] *= 2; show(a[0]); show(a[1]); show(a[2]); u <<= 4; u |= 3u; u ^= 1u; u %= 100u; u /= 3u; show((int)u); c <<= 3; show(c); c >>= 1; show(c); c &= 12; show(c); n = 5; show(a[n % 3]); n <<= n; show(n); return 0; }