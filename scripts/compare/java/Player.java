package library;

import java.lang.reflect.Array;
import java.lang.reflect.InvocationTargetException;
import java.lang.reflect.Method;
import java.lang.reflect.Modifier;
import java.util.ArrayList;
import java.util.Arrays;
import java.util.Comparator;
import java.util.List;
import java.util.Random;

/**
 * The library of one run: takes actions as its random numbers say, and keeps them and the events. The events have the numbers and the texts
 * that pea prints, but for the counts; of a monitor that is held they tell no count either.
 */
final class Player {
    private static final int MOST_EVENTS = 70;
    private static final int MOST_DEPTH = 3;
    private final Random random;
    private final References references;
    private final Choices choices;
    private final List<Class<?>> classes = new ArrayList<>();
    private final List<Method> entries = new ArrayList<>();
    private final List<String> script = new ArrayList<>();
    private final List<String> events = new ArrayList<>();
    private int depth;
    private boolean over;
    private boolean quiet;

    Player(ClassLoader loader, List<String> names, Random random) throws ReflectiveOperationException {
        this.random = random;
        this.references = new References();
        for (String name : names) classes.add(Class.forName(name, false, loader));
        this.choices = new Choices(this, references, classes, random);
        for (Class<?> type : classes) {
            for (Method method : methodsOf(type)) {
                if (isEntry(method)) entries.add(method);
            }
        }
    }

    List<String> script() { return script; }

    List<String> events() { return events; }

    /** Methods in an order that does not depend on the JVM. */
    private static Method[] methodsOf(Class<?> type) {
        Method[] methods = type.getDeclaredMethods();
        Arrays.sort(methods, Comparator.comparing(method -> method.getName() + Printed.descriptor(method)));
        return methods;
    }

    private static boolean isEntry(Method method) {
        return Modifier.isStatic(method.getModifiers()) && method.getName().matches("e\\d+") && method.getDeclaringClass().getSimpleName().equals("Main");
    }

    void play() {
        int calls = 3 + random.nextInt(6);
        for (int i = 0; i < Math.max(calls, entries.size()) && !over; i++) {
            sideActions();
            call(i);
        }
        if (!over) end(random.nextBoolean());
    }

    private void end(boolean stops) {
        if (stops) script.add("stop");
        events.add(stops ? "end Stopped" : "end Waits");
        over = true;
    }

    /** A call of an entry, or of an instance method of a known object. */
    private void call(int number) {
        Method method = number < entries.size() ? entries.get(number) : entries.get(random.nextInt(entries.size()));
        Object receiver = null;
        if (random.nextInt(4) == 0 || depth > 0 && random.nextBoolean()) {
            Object other = references.any(random);
            Method[] own = other == null || !classes.contains(other.getClass()) ? new Method[0] : methodsOf(other.getClass());
            Method chosen = own.length == 0 ? null : own[random.nextInt(own.length)];
            if (chosen != null && (chosen.getModifiers() & (Modifier.ABSTRACT | Modifier.NATIVE | Modifier.STATIC)) == 0) {
                method = chosen;
                receiver = other;
            }
        }
        invoke(method, receiver);
    }

    private void invoke(Method method, Object receiver) {
        Object[] arguments = new Object[method.getParameterCount()];
        for (int i = 0; i < arguments.length; i++) arguments[i] = choices.argument(method.getParameterTypes()[i]);
        StringBuilder line = new StringBuilder("call ").append(Printed.name(method.getDeclaringClass())).append(' ').append(Printed.text(method.getName()))
            .append(' ').append(Printed.descriptor(method));
        if (receiver != null) line.append(' ').append(references.shown(receiver));
        for (Object argument : arguments) line.append(' ').append(references.shown(argument));
        script.add(line.toString());
        depth++;
        try {
            method.setAccessible(true);
            Object result = method.invoke(receiver, arguments);
            event("result", method.getReturnType() == void.class ? new Object[0] : new Object[] {result});
        } catch (InvocationTargetException e) {
            threw(e.getCause());
        } catch (ExceptionInInitializerError e) {
            threw(e);
        } catch (IllegalAccessException impossible) {
            throw new AssertionError(impossible);
        } finally {
            depth--;
        }
    }

    private void threw(Throwable thrown) {
        if (!(thrown instanceof Over)) event("threw", thrown);
    }

    /** An event, whose references are numbered in the order of its values. */
    private void event(String words, Object... values) {
        if (over) return;
        StringBuilder line = new StringBuilder().append(events.size()).append(' ').append(words);
        for (Object value : values) {
            if (value instanceof ExceptionInInitializerError || value instanceof NoClassDefFoundError) {
                events.add("end InitThrew");
                over = true;
                return;
            }
            line.append(' ').append(references.shown(value));
        }
        events.add(line.append(references.held()).toString());
    }

    /** A call of the library: shows it, takes some actions, and answers. */
    Object called(String owner, String name, String descriptor, Object[] values) {
        if (quiet) return null;
        if (over) throw new Over();
        event("call " + owner + " " + name + " " + descriptor, values);
        if (over) throw new Over();
        if (events.size() > MOST_EVENTS) {
            end(true);
            throw new Over();
        }
        sideActions();
        if (over) throw new Over();
        if (!isInitialising() && random.nextInt(20) == 0) {
            Throwable thrown = choices.throwable();
            script.add("throw " + references.shown(thrown));
            throw Player.<RuntimeException>unchecked(thrown);
        }
        String type = descriptor.substring(descriptor.indexOf(')') + 1);
        if (type.equals("V")) {
            script.add("return");
            return null;
        }
        return choices.answer(type);
    }

    /** Whether a class initialiser is among the frames: an exception out of it would end the run. */
    private static boolean isInitialising() {
        for (StackTraceElement frame : new Throwable().getStackTrace()) {
            if (frame.getMethodName().equals("<clinit>")) return true;
        }
        return false;
    }

    @SuppressWarnings("unchecked")
    private static <T extends Throwable> T unchecked(Throwable thrown) throws T {
        throw (T) thrown;
    }

    void act(String action) {
        script.add(action);
    }

    void made(Object object) {
        event("made", object);
    }

    /** Makes an object of the library whose constructor is not to be recorded. */
    Object quietly(Class<?> type) {
        quiet = true;
        try {
            return type.getDeclaredConstructor().newInstance();
        } catch (ReflectiveOperationException impossible) {
            throw new AssertionError(impossible);
        } finally {
            quiet = false;
        }
    }

    private void sideActions() {
        for (int i = 0; i < 3 && random.nextInt(4) == 0 && !over; i++) {
            switch (random.nextInt(5)) {
                case 0: choices.makeArray(); break;
                case 1: choices.makeObject(); break;
                case 2:
                    if (depth < MOST_DEPTH && depth > 0) call(Integer.MAX_VALUE);
                    break;
                default: elementAction();
            }
        }
    }

    private void elementAction() {
        Object array = references.anyArray(random);
        if (array == null) return;
        int length = Array.getLength(array);
        String shown = references.shown(array);
        switch (random.nextInt(3)) {
            case 0:
                script.add("length " + shown);
                event("length", length);
                break;
            case 1:
                if (length == 0) return;
                int index = random.nextInt(length);
                script.add("get " + shown + " " + index);
                event("got", Array.get(array, index));
                break;
            default:
                if (length == 0) return;
                int place = random.nextInt(length);
                Object value = choices.element(array.getClass().getComponentType(), "set " + shown + " " + place + " ");
                Array.set(array, place, value);
        }
    }
}
