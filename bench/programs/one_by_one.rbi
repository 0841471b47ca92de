interface File {
  fun name(): Text;
  fun size(): Int;
  fun rename(to: Text);
}

interface Dir {
  fun count(): Int;
  fun file(i: Int): File;
}

main {
  var sum = 0;
  var shown = 0;
  var count = 0;
  batch (Dir r) {
    count = r.count();
  }
  var i = 0;
  while (i < count) {
    var s = 0;
    batch (Dir r) {
      s = r.file(i).size();
    }
    sum = sum + s;
    if (s > 900) {
      var n = "";
      batch (Dir r) {
        n = r.file(i).name();
      }
      batch (Dir r) {
        r.file(i).rename("big-" + n);
      }
      if (shown < 4) {
        print(n);
        shown = shown + 1;
      }
    }
    i = i + 1;
  }
  print(sum);
}
