int calls;
int say(int r, int c) { calls++; putchar(c); return r; }
int main(void) {
  int a = say(0, 'a') && say(1, 'b');
  int b = say(1, 'c') || say(1, 'd');
  int c = say(5, 'e') && say(7, 'f');
  int d = say(0, 'g') || say(0, 'h');
  int *p = 0;
  putchar('0' + a); putchar('0' + b); putchar('0' + c); putchar('0' + d);
  putchar(say(1, 'i') ? say('j', 'k') : say('l', 'm'));
  putchar(a ? 'x' : b ? 'y' : 'z');
  a = (say(1, 'n'), say(2, 'o'));
  p = a == 2 ? &calls : 0;
  if (p && *p > 3) putchar('!');
  if (!(a == 1 || b == 1 && c == 0)) ; else putchar('?');
  return calls;
}
