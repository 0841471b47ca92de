// Refused: the size comes back, local code adds to it, and the sum would be sent to the same batch again.
interface File {
    fun size(): Int;
    fun grow(by: Int);
}

interface Directory {
    fun file(i: Int): File;
}

main {
    batch (Directory directory) {
        var size = directory.file(0).size();
        size = size + 1;
        directory.file(1).grow(size);
    }
}
