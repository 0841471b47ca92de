interface File {
    fun name(): Text;
    fun size(): Int;
    fun grow(by: Int);
}

interface Directory {
    fun files(): Rows<File>;
    fun file(i: Int): File;
}

main {
    var patience = 3;
    batch (Directory directory) {
        patience = patience - 1;
        if (patience > 0) {
            directory.file(0).grow(1);
        }
    }
}
