/* Structs in structs, packed and not, by pointers, and lists of them. */
struct point { int x, y; };
struct box { struct point low, high; char name[5]; };
struct __attribute__((packed)) entry { char kind; long value; };
struct node { struct node *next; struct entry entry; };

struct box unit = {{0, 0}, {1, 1}, "unit"};

long area(const struct box *box) {
  return (long)(box->high.x - box->low.x) * (box->high.y - box->low.y);
}

long total(const struct node *node) {
  long all = 0;
  for (; node; node = node->next)
    all += node->entry.value;
  return all;
}

void grow(struct box *box, int by) {
  box->high.x += by;
  box->high.y += by;
}
