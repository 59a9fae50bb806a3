int main(void) {
  int i = 100;
  unsigned u = 7;
  char c = 'a';
  int a[3];
  int *p = a;
  a[0] = 5; a[1] = 6; a[2] = 7;
  i += 5; i -= 2; i *= 3; i /= 2; i %= 100; putchar(i);
  i <<= 2; i >>= 1; i |= 64; i &= 126; i ^= 3; putchar(i);
  u *= u; u -= 50; u >>= 30; putchar('0' + u);
  c += 2; c *= 1; putchar(c);
  *p++ += 60; *p-- -= -60; putchar(a[0]); putchar(a[1]); putchar(*(p += 2) + 60);
  i = 1; a[i] += i; a[0] = a[1] += 2; putchar(a[0]); putchar(a[1] == a[0] ? '=' : '#');
  return i += 41;
}
