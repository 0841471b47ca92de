// Buys three things in one exchange. The third isn't there often enough: the shop throws, what was bought before stays bought,
// and the program goes on.
interface Item {
    fun name(): Text;
    fun price(): Int;
    fun take(count: Int);
}

interface Shop {
    fun item(number: Int): Item;
}

class Cart {
    lines: Int;
    total: Int;

    fun add(name: Text, price: Int, count: Int) {
        print(str(count) + " " + name + ": " + str(price * count));
        this.lines = this.lines + 1;
        this.total = this.total + price * count;
    }
}

main {
    val cart = new Cart(0, 0);
    val pens = 10;
    val pads = 2;
    val inks = 3;
    try {
        batch (Shop shop) {
            val pen = shop.item(0);
            pen.take(pens);
            cart.add(pen.name(), pen.price(), pens);
            val pad = shop.item(2);
            pad.take(pads);
            cart.add(pad.name(), pad.price(), pads);
            val ink = shop.item(1);
            ink.take(inks);
            cart.add(ink.name(), ink.price(), inks);
        }
    } catch (problem) {
        print("not bought: " + problem);
    }
    print("total: " + str(cart.total));
}
