int kind(int c) {
  int r = 0;
  switch (c) {
  case 1: r += 1;
  case 2: r += 2; break;
  default: r += 50;
  case -3: r += 4; break;
  case 7: case 8: return 99;
  }
  return r;
}
int main(void) {
  unsigned u = 4294967295u;
  char c = 'q';
  putchar(kind(1) + '0'); putchar(kind(2) + '0'); putchar(kind(-3) + '0');
  putchar(kind(5)); putchar(kind(7)); putchar(kind(8));
  switch (u) { case 4294967295u: putchar('u'); break; case 0: putchar('z'); }
  switch (c) { case 'q': ; case 'r': putchar('r'); }
  switch (c) { case 'a': putchar('!'); }
  switch (3) { }
  return 0;
}
