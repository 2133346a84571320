/** The class that Main was compiled with implemented Asked. */
class Changed {
    public int ask() {
        return 8;
    }
}
