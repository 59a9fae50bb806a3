void number(unsigned n) { if (n > 9) number(n / 10); putchar('0' + n % 10); }
int main(void) {
  unsigned u = 4294967295u;
  int m = -1;
  number(u); putchar(' ');
  u += 2; number(u); putchar(' ');
  u = u - 2; number(u / 3 % 1000); putchar(' ');
  number(u >> 28); putchar(' '); number(u << 31); putchar(' ');
  number(u * u + 5); putchar(' ');
  putchar(u > 0 ? 't' : 'f'); putchar(m > 0u ? 't' : 'f'); putchar(m < 1 ? 't' : 'f');
  putchar(-u == 1 ? 't' : 'f'); putchar(~u == 0 ? 't' : 'f'); putchar(u <= 7 ? 't' : 'f'); putchar(u >= 7 ? 't' : 'f');
  number((unsigned) m / 2u);
  return (int) (u & 200u | 4u ^ 1u);
}
