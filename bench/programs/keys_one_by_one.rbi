// Looks a thousand keys up by a batch for each.
interface File {
  fun size(): Int;
}

interface Dir {
  fun file(i: Int): File;
}

main {
  var keys = List<Int>();
  var i = 0;
  while (i < 1000) {
    keys = keys + List<Int>(i * 617 % 1000);
    i = i + 1;
  }
  var sum = 0;
  for (key in keys) {
    batch (Dir r) {
      sum = sum * 31 % 1000003 + r.file(key).size();
    }
  }
  print(sum);
}
