package survey;

import java.io.ByteArrayInputStream;
import java.io.ByteArrayOutputStream;
import java.io.IOException;
import java.io.ObjectInputStream;
import java.io.ObjectOutputStream;
import java.io.Serializable;
import java.lang.annotation.ElementType;
import java.lang.annotation.Repeatable;
import java.lang.annotation.Retention;
import java.lang.annotation.RetentionPolicy;
import java.lang.annotation.Target;
import java.util.ArrayList;
import java.util.List;
import java.util.Locale;
import java.util.function.Function;
import java.util.function.Predicate;

/** Annotations that repeat or stand on types, lambdas that are serialised, and a switch on strings. */
@Settings.Rule("units are metric")
@Settings.Rule("levels are above sea")
public class Settings<@Settings.Checked T extends @Settings.Checked("bound") Comparable<@Settings.Checked T>> {
    private final List<@Checked("item") T> values = new ArrayList<@Checked T>();
    private final @Checked T @Checked("array") [] bounds;

    public Settings(@Checked T @Checked [] bounds) {
        this.bounds = bounds;
    }

    public boolean keep(@Checked T value) throws @Checked("thrown") IllegalArgumentException {
        Object kept = (@Checked("cast") Comparable<T>) value;
        if (kept instanceof @Checked("test") String && ((String) kept).isEmpty()) {
            throw new @Checked("new") IllegalArgumentException("empty");
        }
        try {
            return value.compareTo(bounds[0]) >= 0 && value.compareTo(bounds[1]) <= 0 && values.add(value);
        } catch (@Checked("caught") ArrayIndexOutOfBoundsException none) {
            return values.add(value);
        }
    }

    public int kept() {
        return values.size();
    }

    /** The function that a word names. */
    public static Function<String, String> named(String word) {
        switch (word.toLowerCase(Locale.ROOT)) {
            case "upper":
                return (Function<String, String> & Serializable) String::toUpperCase;
            case "trim":
                return (Function<String, String> & Serializable) String::trim;
            case "twice":
                return (Function<String, String> & Serializable) text -> text + text;
            case "framed": {
                String edge = "[" + word + "]";
                return (Function<String, String> & Serializable) text -> edge + text + edge;
            }
            default:
                return Function.identity();
        }
    }

    /** A copy of a value by way of its bytes. */
    @SuppressWarnings("unchecked")
    public static <S> S copied(S value) throws IOException, ClassNotFoundException {
        ByteArrayOutputStream bytes = new ByteArrayOutputStream();
        try (ObjectOutputStream out = new ObjectOutputStream(bytes)) {
            out.writeObject(value);
        }
        try (ObjectInputStream in = new ObjectInputStream(new ByteArrayInputStream(bytes.toByteArray()))) {
            return (S) in.readObject();
        }
    }

    public static int rules() {
        return Settings.class.getAnnotationsByType(Rule.class).length;
    }

    /** A predicate that is a value in a set of bits. */
    enum Level implements Predicate<Integer> {
        LOW(level -> level < 100),
        NORMAL(level -> level >= 100 && level < 250) {
            @Override
            public String toString() {
                return "as usual";
            }
        },
        HIGH(level -> level >= 250);

        private final Predicate<Integer> test;

        Level(Predicate<Integer> test) {
            this.test = test;
        }

        @Override
        public boolean test(Integer level) {
            return test.test(level);
        }

        static int bits(int level) {
            int bits = 0;
            for (Level each : values()) {
                bits |= each.test(level) ? 1 << each.ordinal() : 0;
            }
            return bits;
        }
    }

    /** An annotation that repeats. */
    @Retention(RetentionPolicy.RUNTIME)
    @Repeatable(Rules.class)
    @interface Rule {
        String value();
    }

    /** What holds the repeated ones. */
    @Retention(RetentionPolicy.RUNTIME)
    @interface Rules {
        Rule[] value();
    }

    /** An annotation of types and type parameters. */
    @Retention(RetentionPolicy.RUNTIME)
    @Target({ElementType.TYPE_USE, ElementType.TYPE_PARAMETER})
    @interface Checked {
        String value() default "";
    }
}
