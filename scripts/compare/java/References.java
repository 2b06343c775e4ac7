package library;

import java.lang.reflect.Proxy;
import java.util.ArrayList;
import java.util.IdentityHashMap;
import java.util.List;
import java.util.Map;
import java.util.Random;

/** The references that the library knows, by the numbers of their first appearance. */
final class References {
    private final Map<Object, Integer> numbers = new IdentityHashMap<>();
    private final List<Object> known = new ArrayList<>();

    /** A value; a reference that appears for the first time has its class. */
    String shown(Object value) {
        if (value == null) return "null";
        if (value instanceof Number || value instanceof Boolean || value instanceof Character) return Printed.number(value);
        Integer number = numbers.get(value);
        if (number != null) return "r:" + number;
        numbers.put(value, known.size());
        known.add(value);
        return "r:" + (known.size() - 1) + "=" + kind(value);
    }

    private static String kind(Object value) {
        Class<?> type = value.getClass();
        if (Proxy.isProxyClass(type)) {
            StringBuilder all = new StringBuilder("java/lang/Object");
            for (Class<?> also : type.getInterfaces()) all.append('+').append(Printed.name(also));
            return all.toString();
        }
        if (value instanceof String) return Printed.name(type) + "\"str:" + Printed.text((String) value);
        if (value instanceof Class) return Printed.name(type) + "\"class:" + Printed.name((Class<?>) value);
        return Printed.name(type);
    }

    /** The references whose monitors are entered, as an event ends with them. */
    String held() {
        StringBuilder all = new StringBuilder();
        for (int i = 0; i < known.size(); i++) {
            if (Thread.holdsLock(known.get(i))) all.append(" r:").append(i);
        }
        return all.length() == 0 ? "" : " ; held" + all;
    }

    Object any(Random random) {
        return known.isEmpty() ? null : known.get(random.nextInt(known.size()));
    }

    Object anyArray(Random random) {
        return anyOf(Object.class, random, true);
    }

    /** A known object of the type, or null where there is none. */
    Object anyOf(Class<?> type, Random random) {
        return anyOf(type, random, false);
    }

    private Object anyOf(Class<?> type, Random random, boolean isArray) {
        List<Object> fit = new ArrayList<>();
        for (Object object : known) {
            if (type.isInstance(object) && (!isArray || object.getClass().isArray())) fit.add(object);
        }
        return fit.isEmpty() ? null : fit.get(random.nextInt(fit.size()));
    }
}
