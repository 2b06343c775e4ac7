package library;

import java.io.ByteArrayOutputStream;
import java.io.DataOutputStream;
import java.io.IOException;
import java.lang.reflect.Array;
import java.lang.reflect.Method;

/** Texts, names and numbers as {@code pea run} prints them. */
final class Printed {
    private Printed() {}

    static String text(String text) {
        if (text.isEmpty()) return "-";
        if (text.equals("-")) return "%2d";
        ByteArrayOutputStream bytes = new ByteArrayOutputStream();
        try {
            new DataOutputStream(bytes).writeUTF(text);
        } catch (IOException impossible) {
            throw new AssertionError(impossible);
        }
        StringBuilder printed = new StringBuilder();
        byte[] all = bytes.toByteArray();
        for (int i = 2; i < all.length; i++) {
            int unit = all[i] & 0xff;
            if (unit >= 0x21 && unit <= 0x7e && unit != '%') printed.append((char) unit);
            else printed.append(String.format("%%%02x", unit));
        }
        return printed.toString();
    }

    static String name(Class<?> type) {
        return text(type.getName().replace('.', '/'));
    }

    static String descriptor(Class<?> type) {
        if (type == void.class) return "V";
        return Array.newInstance(type, 0).getClass().getName().substring(1).replace('.', '/');
    }

    static String descriptor(Method method) {
        StringBuilder all = new StringBuilder("(");
        for (Class<?> type : method.getParameterTypes()) all.append(descriptor(type));
        return all.append(')').append(descriptor(method.getReturnType())).toString();
    }

    /** A value that is no reference. */
    static String number(Object value) {
        if (value instanceof Long) return "l:" + value;
        if (value instanceof Float) return String.format("f:%08x", Float.floatToRawIntBits((Float) value));
        if (value instanceof Double) return String.format("d:%016x", Double.doubleToRawLongBits((Double) value));
        if (value instanceof Boolean) return (Boolean) value ? "i:1" : "i:0";
        if (value instanceof Character) return "i:" + (int) (Character) value;
        return "i:" + ((Number) value).intValue();
    }
}
