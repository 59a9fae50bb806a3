/* Writes its input backwards: each activation holds one byte in a register. */
int reverse(int depth) {
  register int c = getchar();
  int deepest;
  if (c == -1)
    return depth;
  deepest = reverse(depth + 1);
  putchar(c);
  return deepest;
}

int main(void) {
  return reverse(0);
}
