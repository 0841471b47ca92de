main {
  var items = List<Int>(3, 1, 4, 1, 5, 9, 2, 6, 5, 3);
  while (len(items) < 5120) {
    items = items + items;
  }
  var i = 0;
  var sum = 0;
  while (i < 800000) {
    sum = sum + items[i % 5120];
    i = i + 1;
  }
  print(sum);
}
