void num(unsigned n) { if (n >= 10u) num(n / 10u); putchar((int)(n % 10u) + 48); }
void show(int n) { if (n < 0) { putchar('-'); num(-(unsigned)n); } else num((unsigned)n); putchar(10); }
int main(void) { int c; int n; int lines; n = 0; lines = 0; while ((c = getchar()) != -1) { n = n * 31 % 65521 + c; if (c == '\n') lines++; } show(n); show(lines); show(getchar()); return lines; }