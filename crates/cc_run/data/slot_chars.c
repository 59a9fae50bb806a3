char table[4];
int main(void) {
  char c = 200;
  char d = 127;
  int i;
  d++;
  if (c < 0) putchar('n');
  if (d == -128) putchar('o');
  i = c;
  if (i == -56) putchar('p');
  table[0] = 'x' + 256; table[1] = c += 100; table[2] = d = 65; table[3] = (char) 577;
  for (i = 0; i < 4; i++) putchar(table[i]);
  putchar(300); putchar(-1 & 127);
  i = (c = 300) + 1;
  return i + sizeof c;
}
