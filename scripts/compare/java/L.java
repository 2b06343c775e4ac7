package library;

/** The library that the generated folders call. On the JVM each call is recorded, and answered as the script says. */
public final class L {
    private L() {}

    public static void use(int value) { Recorder.call("library/L", "use", "(I)V", value); }
    public static void use(long value) { Recorder.call("library/L", "use", "(J)V", value); }
    public static void use(float value) { Recorder.call("library/L", "use", "(F)V", value); }
    public static void use(double value) { Recorder.call("library/L", "use", "(D)V", value); }
    public static void use(boolean value) { Recorder.call("library/L", "use", "(Z)V", value); }
    public static void use(byte value) { Recorder.call("library/L", "use", "(B)V", value); }
    public static void use(short value) { Recorder.call("library/L", "use", "(S)V", value); }
    public static void use(char value) { Recorder.call("library/L", "use", "(C)V", value); }
    public static void use(Object value) { Recorder.call("library/L", "use", "(Ljava/lang/Object;)V", value); }

    public static int askI() { return (Integer) Recorder.call("library/L", "askI", "()I"); }
    public static long askJ() { return (Long) Recorder.call("library/L", "askJ", "()J"); }
    public static float askF() { return (Float) Recorder.call("library/L", "askF", "()F"); }
    public static double askD() { return (Double) Recorder.call("library/L", "askD", "()D"); }
    public static boolean askZ() { return (Boolean) Recorder.call("library/L", "askZ", "()Z"); }
    public static byte askB() { return (Byte) Recorder.call("library/L", "askB", "()B"); }
    public static short askS() { return (Short) Recorder.call("library/L", "askS", "()S"); }
    public static char askC() { return (Character) Recorder.call("library/L", "askC", "()C"); }
    public static Object askO() { return Recorder.call("library/L", "askO", "()Ljava/lang/Object;"); }
    public static int[] askA() { return (int[]) Recorder.call("library/L", "askA", "()[I"); }

    public static long mix(Object first, long second, byte third, double fourth) {
        return (Long) Recorder.call("library/L", "mix", "(Ljava/lang/Object;JBD)J", first, second, third, fourth);
    }
}
