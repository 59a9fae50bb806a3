char *greeting = "hello";
char word[6] = "ab";
char *names[3] = { "one", "two", 0 };
void put(char *s) { while (*s) putchar(*s++); }
int main(void) {
  int i;
  put(greeting); put(", \"world\"\n");
  for (i = 0; names[i]; i++) put(names[i]);
  putchar("0123456789abcdef"[11]);
  word[2] = 'c';
  put(word);
  return sizeof word + sizeof "abc";
}
