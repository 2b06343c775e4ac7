/** Constants that are objects, and which of them are the same. */
class Texts {
    static final String NAME = "name";
    static String kept;

    static boolean same() {
        return "one" == "one" && NAME == "name";
    }

    static boolean different(int which) {
        String text = which == 0 ? "one" : "two";
        return text == "one";
    }

    static String chosen(int which) {
        return which > 0 ? "above" : which < 0 ? "below" : null;
    }

    static boolean keeps(int which) {
        kept = chosen(which);
        return kept == "above";
    }

    static boolean classes() {
        return Texts.class == Texts.class && (Object) Texts.class != int[].class;
    }
}
