void number(int n) {
  if (n < 0) { putchar('-'); if (n < -9) number(-(n / 10)); putchar('0' - n % 10); return; }
  if (n > 9) number(n / 10);
  putchar('0' + n % 10);
}
int main(void) {
  int least = -2147483647 - 1;
  number(least); putchar(' ');
  number(-7 / 2); number(-7 % 2); number(7 / -2); number(7 % -2); putchar(' ');
  number(least >> 28); number(1 << 30); putchar(' ');
  number(~5); number(+5); number(- -5); number(!5); number(!0); putchar(' ');
  number(6 & 3); number(6 | 3); number(6 ^ 3); number(-6 & 255); putchar(' ');
  number(3 < -4); number(-4 < 3); number(3 >= 3); number(3 != 3); number(1 == 1);
  return 17 * 3 - 2 * (4 + 5) % 7;
}
