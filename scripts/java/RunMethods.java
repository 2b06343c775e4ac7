import java.lang.reflect.InvocationTargetException;
import java.lang.reflect.Method;
import java.nio.file.Files;
import java.nio.file.Paths;
import java.util.ArrayList;
import java.util.List;

/**
 * Calls the static methods that a file lists, in its order, and prints what each gives as a run of pea shows it: `result`, with a
 * number or the class of a reference, or `threw` and the class of the exception. The words of a line are those of
 * examples/methods/calls.txt.
 */
public class RunMethods {
    public static void main(String[] words) throws Exception {
        for (String line : Files.readAllLines(Paths.get(words[0]))) {
            if (line.isEmpty() || line.startsWith("#")) continue;
            String[] parts = line.split(" ");
            System.out.println(call(parts));
        }
    }

    static String call(String[] parts) throws Exception {
        for (Method method : Class.forName(parts[0]).getDeclaredMethods()) {
            if (!method.getName().equals(parts[1]) || !descriptor(method).equals(parts[2])) continue;
            List<Object> values = new ArrayList<>();
            for (int i = 4; i < parts.length; i++) values.add(value(parts[i]));
            method.setAccessible(true);
            try {
                return "result" + shown(method, method.invoke(null, values.toArray()));
            } catch (InvocationTargetException e) {
                return "threw " + name(e.getCause().getClass());
            }
        }
        throw new NoSuchMethodException(parts[1]);
    }

    static Object value(String word) {
        String number = word.substring(2);
        if (word.startsWith("l:")) return Long.parseLong(number);
        return Integer.parseInt(number);
    }

    static String shown(Method method, Object value) {
        Class<?> type = method.getReturnType();
        if (type == void.class) return "";
        if (!type.isPrimitive()) return value == null ? " null" : " " + name(value.getClass());
        if (type == long.class) return " l:" + value;
        if (type == boolean.class) return " i:" + ((Boolean) value ? 1 : 0);
        if (type == char.class) return " i:" + (int) (Character) value;
        return " i:" + ((Number) value).intValue();
    }

    static String name(Class<?> type) {
        return type.getName().replace('.', '/');
    }

    static String descriptor(Method method) {
        StringBuilder text = new StringBuilder("(");
        for (Class<?> type : method.getParameterTypes()) text.append(descriptor(type));
        return text.append(')').append(descriptor(method.getReturnType())).toString();
    }

    static String descriptor(Class<?> type) {
        if (type == void.class) return "V";
        String array = java.lang.reflect.Array.newInstance(type, 0).getClass().getName();
        return array.substring(1).replace('.', '/');
    }
}
