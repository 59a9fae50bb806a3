void num(unsigned n) { if (n >= 10u) num(n / 10u); putchar((int)(n % 10u) + 48); }
void show(int n) { if (n < 0) { putchar('-'); num(-(unsigned)n); } else num((unsigned)n); putchar(10); }
int x = 1; int main(void) { int y = x; { int x = 10; y += x; { int x = 0; y += x; x = 5; y += x; } y += x; } y += x; show(y); { int i; for (i = 0; i < 3; i++) { int z = 0; show(z); z = i + 1; } } return y; }