void number(int n) { if (n > 9) number(n / 10); putchar('0' + n % 10); }
int main(void) {
  int i = 0;
  int j;
  int sum = 0;
  while (i < 5) { i++; if (i == 3) continue; sum += i; }
  number(sum);
  do { sum -= 4; if (sum < 0) break; } while (sum);
  putchar(' ');
  for (i = 0; i < 4; i++) {
    for (j = 0; ; j++) {
      if (j > i) break;
      if ((i + j) % 2) continue;
      putchar('a' + i * 4 + j);
    }
  }
  for (;;) { if (i-- == 0) break; putchar('.'); }
  return sum + 20;
}
