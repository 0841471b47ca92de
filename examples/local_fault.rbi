interface File {
    fun name(): Text;
    fun size(): Int;
    fun grow(by: Int);
}

interface Directory {
    fun files(): Rows<File>;
    fun file(i: Int): File;
}

main {
    val parts = 0;
    try {
        batch (Directory directory) {
            for (f in directory.files()) {
                val size = f.size();
                var each = size / parts;
                print(each);
                f.grow(1);
            }
        }
    } catch (problem) {
        print("local: " + problem);
    }
}
