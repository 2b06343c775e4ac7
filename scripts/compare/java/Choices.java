package library;

import java.lang.reflect.Array;
import java.lang.reflect.Method;
import java.lang.reflect.Modifier;
import java.lang.reflect.Proxy;
import java.util.ArrayList;
import java.util.HashSet;
import java.util.List;
import java.util.Random;
import java.util.Set;

/** The values that the library chooses. */
final class Choices {
    private static final int[] INTS = {0, 1, -1, 2, 3, 5, 7, 31, 32, 33, 63, 64, 127, 128, -128, -129, 255, 256, 300, 32767, 32768, -32768, -32769, 65535, 65536,
        Integer.MAX_VALUE, Integer.MIN_VALUE, Integer.MIN_VALUE + 1};
    private static final long[] LONGS = {0, 1, -1, 2, 10, 63, 64, 0x100000000L, 0xffffffffL, -0x80000001L, Long.MAX_VALUE, Long.MIN_VALUE, Long.MIN_VALUE + 1};
    private static final int[] FLOATS = {0, 0x80000000, 0x3f800000, 0x7f800000, 0x7fc00000, 0x7fa00001, 0xffffffff, 1};
    private static final long[] DOUBLES = {0, 0x8000000000000000L, 0x3ff0000000000000L, 0x7ff0000000000000L, 0x7ff8000000000000L, 0x7ff4000000000001L, -1, 1};
    private static final Class<?>[] THROWABLES = {ArithmeticException.class, NullPointerException.class, ArrayIndexOutOfBoundsException.class,
        ArrayStoreException.class, NegativeArraySizeException.class, ClassCastException.class, IllegalMonitorStateException.class, Throwable.class,
        RuntimeException.class, Exception.class, Error.class, E.class};
    private static final Class<?>[] ELEMENTS = {int.class, long.class, byte.class, short.class, char.class, boolean.class, float.class, double.class,
        Object.class, String.class, int[].class};
    private final Player player;
    private final References references;
    private final List<Class<?>> classes;
    private final List<Class<?>> interfaces = new ArrayList<>();
    private final Random random;

    Choices(Player player, References references, List<Class<?>> classes, Random random) {
        this.player = player;
        this.references = references;
        this.classes = classes;
        this.random = random;
        for (Class<?> type : classes) {
            if (type.isInterface() && isPlain(type, new HashSet<>())) interfaces.add(type);
        }
    }

    /**
     * Whether no two of the interface's methods have a name and descriptor in common, and none is a default: then a Proxy shows the same calls.
     * It has no fields either, and no parameter of a class of the folder, since the class of a Proxy initialises its interfaces and the classes of
     * the parameters.
     */
    private static boolean isPlain(Class<?> type, Set<String> met) {
        if (type.getDeclaredFields().length > 0) return false;
        for (Method method : type.getDeclaredMethods()) {
            if (Modifier.isStatic(method.getModifiers())) continue;
            if (!Modifier.isAbstract(method.getModifiers())) return false;
            for (Class<?> parameter : method.getParameterTypes()) {
                if (parameter.getClassLoader() == type.getClassLoader() && !parameter.isArray()) return false;
            }
            if (!met.add(method.getName() + Printed.descriptor(method))) return false;
        }
        for (Class<?> above : type.getInterfaces()) {
            if (!isPlain(above, met)) return false;
        }
        return true;
    }

    private int anyInt() {
        switch (random.nextInt(4)) {
            case 0: return random.nextInt();
            case 1: return random.nextInt(9) - 3;
            default: return INTS[random.nextInt(INTS.length)];
        }
    }

    private long anyLong() {
        return random.nextInt(4) == 0 ? random.nextLong() : LONGS[random.nextInt(LONGS.length)];
    }

    private float anyFloat() {
        return Float.intBitsToFloat(FLOATS[random.nextInt(FLOATS.length)]);
    }

    private double anyDouble() {
        return Double.longBitsToDouble(DOUBLES[random.nextInt(DOUBLES.length)]);
    }

    /** An argument of a call, in the range of its type. */
    Object argument(Class<?> type) {
        if (type.isPrimitive()) return narrowed(type, anyOfKind(type));
        if (random.nextInt(5) == 0) return null;
        Object found = random.nextInt(3) == 0 ? null : references.anyOf(type, random);
        if (found != null) return found;
        if (type.isArray()) return array(type.getComponentType());
        if (interfaces.contains(type)) return proxy(type);
        if (type == X.class || type == E.class) return made(type);
        if (type == Throwable.class) return made(THROWABLES[random.nextInt(THROWABLES.length)]);
        if (type == Object.class) return random.nextBoolean() ? made(Object.class) : array(ELEMENTS[random.nextInt(ELEMENTS.length)]);
        return references.anyOf(type, random);
    }

    /** A value of the kind of a primitive type: one of int also for what is narrower. */
    private Object anyOfKind(Class<?> type) {
        if (type == long.class) return anyLong();
        if (type == float.class) return anyFloat();
        if (type == double.class) return anyDouble();
        return anyInt();
    }

    private static Object narrowed(Class<?> type, Object value) {
        if (!(value instanceof Integer)) return value;
        int number = (Integer) value;
        if (type == boolean.class) return (number & 1) != 0;
        if (type == byte.class) return (byte) number;
        if (type == short.class) return (short) number;
        if (type == char.class) return (char) number;
        return value;
    }

    /** Adds an action that begins with these words and ends with a value of the type; gives the value as it is narrowed. */
    Object element(Class<?> type, String words) {
        Object value = type.isPrimitive() ? anyOfKind(type) : random.nextInt(4) == 0 ? null : references.anyOf(type, random);
        player.act(words + references.shown(value));
        return narrowed(type, value);
    }

    /** Answers a call whose result has this descriptor. */
    Object answer(String descriptor) {
        switch (descriptor.charAt(0)) {
            case 'I': return element(int.class, "return ");
            case 'J': return element(long.class, "return ");
            case 'F': return element(float.class, "return ");
            case 'D': return element(double.class, "return ");
            case 'Z': return element(boolean.class, "return ");
            case 'B': return element(byte.class, "return ");
            case 'S': return element(short.class, "return ");
            case 'C': return element(char.class, "return ");
            case '[': return element(int[].class, "return ");
            default: return element(typeOf(descriptor), "return ");
        }
    }

    private Class<?> typeOf(String descriptor) {
        String name = descriptor.substring(1, descriptor.length() - 1).replace('/', '.');
        for (Class<?> type : classes) {
            if (type.getName().equals(name)) return type;
        }
        return name.equals("java.lang.String") ? String.class : Object.class;
    }

    Throwable throwable() {
        Object known = random.nextBoolean() ? references.anyOf(Throwable.class, random) : null;
        return known != null ? (Throwable) known : (Throwable) made(THROWABLES[random.nextInt(THROWABLES.length)]);
    }

    void makeArray() {
        if (random.nextInt(3) == 0 && !classes.isEmpty()) array(classes.get(random.nextInt(classes.size())));
        else array(ELEMENTS[random.nextInt(ELEMENTS.length)]);
    }

    void makeObject() {
        switch (random.nextInt(4)) {
            case 0: made(Object.class); break;
            case 1: made(THROWABLES[random.nextInt(THROWABLES.length)]); break;
            case 2: made(X.class); break;
            default: if (!interfaces.isEmpty()) proxy(interfaces.get(random.nextInt(interfaces.size())));
        }
    }

    private Object made(Class<?> type) {
        Object object = player.quietly(type);
        player.act("new " + Printed.name(type));
        player.made(object);
        return object;
    }

    private Object array(Class<?> component) {
        int length = random.nextInt(4);
        Object array = Array.newInstance(component, length);
        player.act("array " + Printed.descriptor(array.getClass()) + " " + length);
        player.made(array);
        return array;
    }

    private Object proxy(Class<?> type) {
        Object object = Proxy.newProxyInstance(type.getClassLoader(), new Class<?>[] {type}, (self, method, arguments) -> {
            Object[] values = new Object[1 + (arguments == null ? 0 : arguments.length)];
            values[0] = self;
            for (int i = 1; i < values.length; i++) values[i] = arguments[i - 1];
            return player.called(Printed.name(method.getDeclaringClass()), method.getName(), Printed.descriptor(method), values);
        });
        player.act("new java/lang/Object " + Printed.name(type));
        player.made(object);
        return object;
    }
}
