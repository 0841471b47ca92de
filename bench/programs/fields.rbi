class Pair {
  a: Int;
  b: Int;
}
main {
  val p = new Pair(1, 2);
  var i = 0;
  while (i < 500000) {
    p.a = p.a + p.b;
    p.b = p.a % 1000;
    i = i + 1;
  }
  print(p.a);
}
