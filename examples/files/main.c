/* Sums up two and forty: main.c has the program, stack.c a stack of numbers. */
int push(int number);
int pop(void);

static int depth = 100;
int *mark = &depth;

int main(void) {
  char word[8];
  push(2);
  push(40);
  word[0] = 'o';
  word[1] = 'k';
  *mark = *mark + 1;
  return pop() + pop();
}
