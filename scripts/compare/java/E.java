package library;

/** The superclass of the throwables of the generated folders. */
public class E extends RuntimeException {
    public E() { Recorder.call("library/E", "<init>", "()V", this); }
}
