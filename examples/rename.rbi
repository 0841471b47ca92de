// Marks the large files of a directory by their names, and says which it marked.
interface File {
    fun name(): Text;
    fun size(): Int;
    fun rename(to: Text);
}

interface Directory {
    fun files(): Rows<File>;
}

main {
    val large = 1000;
    val mark = "large-";
    var count = 0;
    batch (Directory directory) {
        for (f in directory.files()) {
            if (f.size() > large) {
                val old = f.name();
                f.rename(mark + old);
                print(old);
                count = count + 1;
            }
        }
    }
    print(str(count) + " renamed");
}
