/* Keeps the bytes of its input in a list, the newest first, and writes the list. */
struct node {
  char letter;
  int number;
  struct node *next;
};

struct node room[8];
struct node *head;
int used;

void add(int letter) {
  struct node *fresh = &room[used];
  used = used + 1;
  fresh->letter = letter;
  fresh->number = used;
  fresh->next = head;
  head = fresh;
}

int main(void) {
  int c;
  struct node *at;
  while ((c = getchar()) != -1)
    add(c);
  for (at = head; at != 0; at = at->next)
    putchar(at->letter);
  return used;
}
