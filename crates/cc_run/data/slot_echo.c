int main(void) {
  int c;
  int lines = 0;
  while ((c = getchar()) != -1) {
    if (c >= 'a' && c <= 'z') c += 'A' - 'a';
    if (c == '\n') lines++;
    putchar(c);
  }
  if (getchar() == -1) putchar('$');
  return lines;
}
