// Looks a thousand keys up in one exchange, by a loop over their list.
interface File {
  fun size(): Int;
}

interface Dir {
  fun file(i: Int): File;
}

main {
  var keys = List<Int>();
  var i = 0;
  while (i < 1000) {
    keys = keys + List<Int>(i * 617 % 1000);
    i = i + 1;
  }
  var sum = 0;
  batch (Dir r) {
    for (key in keys) {
      sum = sum * 31 % 1000003 + r.file(key).size();
    }
  }
  print(sum);
}
