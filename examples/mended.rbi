// The refused program, mended: a `val` of a remote call stays with the server, and so does the sum that is sent.
interface File {
    fun size(): Int;
    fun grow(by: Int);
}

interface Directory {
    fun file(i: Int): File;
}

main {
    batch (Directory directory) {
        val size = directory.file(0).size();
        directory.file(1).grow(size + 1);
    }
}
