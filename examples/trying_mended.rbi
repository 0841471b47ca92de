interface File {
    fun name(): Text;
    fun size(): Int;
    fun grow(by: Int);
}

interface Directory {
    fun files(): Rows<File>;
    fun file(i: Int): File;
}

main {
    try {
        batch (Directory directory) {
            directory.file(9).grow(1);
        }
    } catch (problem) {
        print(problem);
    }
}
