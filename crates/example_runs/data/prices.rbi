// Looks prices up by name, and then raises some and takes others away. The lists of names go along into the scripts, so each
// batch is one exchange, however many names there are.
interface Item {
    fun name(): Text;
    fun price(): Int;
    fun raise(by: Int);
}

interface Shop {
    fun items(): Rows<Item>;
    fun named(name: Text): Item;
    fun remove(name: Text);
}

main {
    val names = List<Text>("pen", "pad", "ink");
    var sum = 0;
    batch (Shop shop) {
        for (name in names) {
            val price = shop.named(name).price();
            print(name + ": " + str(price));
            sum = sum + price;
        }
    }
    print("all: " + str(sum));

    val dearer = List<Text>("pen", "ink");
    val gone = List<Text>("pad", "cap");
    val by = 5;
    batch (Shop shop) {
        for (name in dearer) {
            shop.named(name).raise(by);
        }
        for (name in gone) {
            shop.remove(name);
        }
        for (item in shop.items()) {
            print(item.name() + " costs " + str(item.price()));
        }
    }
}
