interface File {
    fun name(): Text;
    fun size(): Int;
    fun grow(by: Int);
}

interface Directory {
    fun files(): Rows<File>;
    fun file(i: Int): File;
}

main {
    val by = 5;
    batch (Directory directory) {
        directory.file(0).grow(by);
    }
}
