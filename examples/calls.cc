int a() { return 7; }
int b() { return a(); }
