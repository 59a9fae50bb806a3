static int seen;
int count(int c) {
  if (c == '\n')
    seen = seen + 1;
  return seen;
}
