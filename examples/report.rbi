// A report over folders and their files: loops within loops, and still one exchange.
interface File {
    fun name(): Text;
    fun size(): Int;
}

interface Folder {
    fun name(): Text;
    fun files(): Rows<File>;
}

interface Disk {
    fun folders(): Rows<Folder>;
}

main {
    var all = 0;
    batch (Disk disk) {
        for (folder in disk.folders()) {
            print(folder.name());
            var sum = 0;
            for (file in folder.files()) {
                val size = file.size();
                print("  " + file.name() + " " + str(size));
                sum = sum + size;
            }
            print("  sum " + str(sum));
            all = all + sum;
        }
    }
    print("all " + str(all));
}
