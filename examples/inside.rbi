interface File {
    fun name(): Text;
    fun size(): Int;
    fun grow(by: Int);
}

interface Directory {
    fun files(): Rows<File>;
    fun file(i: Int): File;
}

main {
    batch (Directory directory) {
        batch (Directory other) {
            print(other.file(0).name());
        }
    }
}
