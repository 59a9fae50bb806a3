void num(unsigned n) { if (n >= 10u) num(n / 10u); putchar((int)(n % 10u) + 48); }
void show(int n) { if (n < 0) { putchar('-'); num(-(unsigned)n); } else num((unsigned)n); putchar(10); }
char *a = "one"; int eq(char *x, char *y) { while (*x && *x == *y) { x++; y++; } return *x == *y; }
int main(void) { show(eq(a, "one")); show(eq("two" "three", "twothree")); show(sizeof "four"); putchar("abc"[2]); putchar(*"q"); return 0; }