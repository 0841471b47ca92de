interface File {
  fun name(): Text;
  fun size(): Int;
}

interface Directory {
  fun files(): Rows<File>;
}

main {
  var turns = 0;
  var total = 0;
  while (turns < 5000) {
    batch (Directory directory) {
      for (f in directory.files()) {
        total = total + f.size();
      }
    }
    turns = turns + 1;
  }
  print(total);
}
