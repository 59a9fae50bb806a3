struct cell { char c; int n; };
struct cell cells[2];
int main(void) {
  register int r = 5;
  register char k = 126;
  int i = 0;
  int a[3];
  int *p = a;
  struct cell *q = cells;
  a[0] = a[1] = a[2] = 1;
  putchar('0' + i++); putchar('0' + i--); putchar('0' + ++i); putchar('0' + --i);
  putchar('0' + r++); putchar('0' + --r); k++; k++; putchar(k == -128 ? 'w' : 'v');
  (*p)++; ++*p; p++; --*p--; putchar('0' + a[0]); putchar('0' + a[1]); putchar('0' + *p);
  cells[1].n++; q++; ++q->n; q->c--; putchar('0' + q->n); putchar('a' - q->c); q--;
  putchar('0' + (q - cells));
  return ++cells[0].n + q[1].n--;
}
