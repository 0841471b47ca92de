class Counter {
  n: Int;
  fun add(by: Int): Int {
    return this.n + by;
  }
}
main {
  val c = new Counter(3);
  var i = 0;
  var sum = 0;
  while (i < 500000) {
    sum = c.add(sum) % 1009;
    i = i + 1;
  }
  print(sum);
}
