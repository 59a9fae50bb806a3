int a[2][3] = { { 1, 2, 3 }, { 4, 5, 6 } };
int b[3][2] = { { 7, 8 }, { 9, 10 }, { 11, 12 } };
int c[2][2];
int main(void) {
  int i; int j; int k;
  for (i = 0; i < 2; i++)
    for (j = 0; j < 2; j++)
      for (k = 0; k < 3; k++)
        c[i][j] += a[i][k] * b[k][j];
  putchar(c[0][0]); putchar(c[0][1]);
  putchar(sizeof a / sizeof a[0] + '0'); putchar(sizeof a[0] / sizeof(int) + '0');
  putchar(&c[1][1] - &c[1][0] + '0');
  return c[1][1];
}
