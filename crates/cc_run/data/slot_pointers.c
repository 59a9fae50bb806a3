int a[5] = { 10, 20, 30, 40, 50 };
int *middle = &a[2];
int *end = a + 5;
void swap(int *x, int *y) { int t = *x; *x = *y; *y = t; }
int main(void) {
  int *p = a;
  int **pp = &p;
  int n = 0;
  swap(&a[0], end - 1);
  for (p = a; p != end; p++) n += *p;
  putchar(n == 150 ? 'y' : 'n');
  p = middle; *pp = *pp + 1;
  putchar('0' + *p / 10);
  putchar('0' + (end - a)); putchar('0' + (middle - end + 9));
  putchar(p > middle ? '>' : '<'); putchar(a <= p && p < end ? '1' : '0');
  putchar(p == 0 ? '0' : '1'); p = 0; putchar(p ? '1' : '0'); putchar(!p + '0');
  p = a; p += 3; p -= 1; --p; p++;
  putchar('0' + 2[a] / 10); putchar('0' + p[-2] / 10);
  return *(a + 4) + a[1u];
}
