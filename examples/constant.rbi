interface File {
    fun name(): Text;
    fun size(): Int;
    fun grow(by: Int);
}

interface Directory {
    fun files(): Rows<File>;
    fun file(i: Int): File;
}

main {
    batch (Directory directory) {
        var by = 5;
        directory.file(0).grow(by);
    }
}
