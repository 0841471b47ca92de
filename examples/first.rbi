interface D {
    fun n(): Int;
}

main {
    batch (D r) {
        print(r.n());
    }
}
