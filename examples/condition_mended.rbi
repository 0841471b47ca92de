interface File {
    fun name(): Text;
    fun size(): Int;
    fun grow(by: Int);
}

interface Directory {
    fun files(): Rows<File>;
    fun file(i: Int): File;
}

main {
    var patience = 3;
    patience = patience - 1;
    batch (Directory directory) {
        if (patience > 0) {
            directory.file(0).grow(1);
        }
    }
}
