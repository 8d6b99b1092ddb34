int one() { return 1; }

int main() {
  return two();
}
