char composite[50];
int sorted[8] = { 5, 2, 9, 1, 7, 3, 8, 6 };
void sort(int *a, int n) {
  int i; int j;
  for (i = 0; i < n; i++)
    for (j = n - 1; j > i; j--)
      if (a[j] < a[j - 1]) { int t = a[j]; a[j] = a[j - 1]; a[j - 1] = t; }
}
int main(void) {
  int i; int j; int primes = 0;
  for (i = 2; i < 50; i++) {
    if (composite[i]) continue;
    primes++;
    for (j = i * i; j < 50; j += i) composite[j] = 1;
  }
  sort(sorted, 8);
  for (i = 0; i < 8; i++) putchar('0' + sorted[i]);
  return primes;
}
