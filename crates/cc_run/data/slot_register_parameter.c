int fact(register int n) {
  if (n <= 1) return 1;
  return n * fact(n - 1);
}
int main(void) { return fact(5); }
