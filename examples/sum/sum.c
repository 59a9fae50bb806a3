int number;
int sum;

int digit(int c) {
  return c >= '0' && c <= '9';
}

int main(void) {
  int c;
  c = getchar();
  while (c != -1) {
    if (digit(c))
      number = number * 10 + c - '0';
    else
      sum = sum + number;
    c = getchar();
  }
  return sum;
}
