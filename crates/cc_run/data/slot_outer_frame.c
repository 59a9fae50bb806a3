int deep(int d) {
  register int k;
  k = d;
  if (d < 12)
    deep(d + 1);
  putchar(64 + k);
  return k;
}
int main(void) { return deep(1); }
