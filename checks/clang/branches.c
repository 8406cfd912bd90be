/* Switches, short circuits, calls, recursion, and functions that are declared alone. */
extern int weight(int kind);
static int depth;

int classify(int kind) {
  switch (kind) {
  case 0: return 10;
  case 1: case 2: return 20;
  case -7: return weight(kind);
  case 1000000: return 40;
  default: return kind < 0 ? -1 : 1;
  }
}

unsigned gcd(unsigned a, unsigned b) { return b ? gcd(b, a % b) : a; }

int descend(int steps) {
  if (steps <= 0 || depth > 100)
    return depth;
  depth++;
  int found = descend(steps - 1);
  depth--;
  return found && steps != 3 ? found : weight(steps);
}

int main(void) { return classify((int)gcd(12, 18)) + descend(4); }
