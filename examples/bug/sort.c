/* Keeps the letters of its input in order, in a list, and writes them. It should end. */
struct node {
  char letter;
  struct node *next;
};

struct node room[16];
struct node *head;
int used;

struct node *insert(struct node *list, struct node *fresh) {
  if (list == 0 || fresh->letter < list->letter) {
    fresh->next = head;
    return fresh;
  }
  list->next = insert(list->next, fresh);
  return list;
}

int main(void) {
  int c;
  struct node *at;
  while ((c = getchar()) != -1) {
    room[used].letter = c;
    head = insert(head, &room[used]);
    used = used + 1;
  }
  for (at = head; at != 0; at = at->next)
    putchar(at->letter);
  return used;
}
