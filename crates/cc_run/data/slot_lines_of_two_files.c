int count(int c);
static int seen;
int main(void) {
  int c;
  while ((c = getchar()) != -1) {
    seen = seen + 1;
    count(c);
  }
  return count(-1);
}
