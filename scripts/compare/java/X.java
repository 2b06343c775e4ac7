package library;

/** A class of the library that classes of the generated folders extend. */
public class X {
    public X() { Recorder.call("library/X", "<init>", "()V", this); }

    public int outer(int value) { return (Integer) Recorder.call("library/X", "outer", "(I)I", this, value); }
    protected Object inner(Object value) { return Recorder.call("library/X", "inner", "(Ljava/lang/Object;)Ljava/lang/Object;", this, value); }
}
