interface File {
  fun name(): Text;
  fun size(): Int;
  fun rename(to: Text);
}

interface Dir {
  fun files(): Rows<File>;
}

main {
  var sum = 0;
  var shown = 0;
  batch (Dir r) {
    for (f in r.files()) {
      val s = f.size();
      sum = sum + s;
      if (s > 900) {
        val n = f.name();
        f.rename("big-" + n);
        if (shown < 4) {
          print(n);
          shown = shown + 1;
        }
      }
    }
  }
  print(sum);
}
