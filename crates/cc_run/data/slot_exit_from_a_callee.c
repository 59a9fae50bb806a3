int depth;
void down(int n) {
  depth++;
  putchar('a' + n);
  if (n == 3) exit(depth * 10);
  { int m = n + 1; down(m); }
  putchar('!');
}
int main(void) { down(0); putchar('?'); return 1; }
