int sum(register int a, int b, register int c) {
  register int d = a + b;
  register char e = 5;
  register unsigned f = 6;
  register int *g = &b;
  register int h = 8;
  register int i = 9;
  register int j = 10;
  register int k = 11;
  register int l = 12;
  *g += 100;
  a += b; e = e + f; l *= 2; k++;
  if (h) { register int m = i; j += m; }
  return a + b + c + d + e + f + h + i + j + k + l;
}
int main(void) { return sum(1, 2, 3) - 250; }
