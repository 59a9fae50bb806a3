int step(int by);
static int count = 100;
int main(void) {
  step(3);
  count = count + step(4);
  return count;
}
