package depot;

import java.lang.annotation.Annotation;
import java.lang.reflect.Method;
import java.util.ArrayList;
import java.util.Collections;
import java.util.List;

/** Annotated classes, fields, methods and parameters, and what reflection reads of them. */
@Audited(by = "harbour master", level = 3, reasons = {@Audited.Reason("law"), @Audited.Reason("habit")})
public class Inspection {
    @Audited(zone = Zone.ISLAND, tool = Checksums.class)
    protected int seals;

    @Deprecated
    static final String OLD_FORM = "form 17";
    static final long FIRST_NUMBER = 1L << 42;
    static final double LIMIT = 1.75;
    static final float SMALL_LIMIT = 0.25f;
    static final char FORM_LETTER = 'F';
    static final boolean FORMAL = true;

    @Audited(mark = 'c')
    public Inspection(@Audited(strict = true) int seals) {
        this.seals = seals;
    }

    @Audited(tags = {"weigh", "open"}, tool = int[].class)
    public boolean weigh(@Audited(level = 2) Parcel parcel, int grams) {
        return parcel.grams() == grams;
    }

    @Audited(by = "", weight = Double.MIN_VALUE)
    @Deprecated
    public native void stamp(String form);

    /** What stands on the class and its methods, in byte order. */
    public static List<String> found() {
        List<String> found = new ArrayList<>();
        Audited own = Inspection.class.getAnnotation(Audited.class);
        found.add("class by " + own.by() + " at " + own.level() + " for " + own.reasons().length);
        for (Method method : Inspection.class.getDeclaredMethods()) {
            for (Annotation annotation : method.getAnnotations()) {
                found.add(method.getName() + " has " + annotation.annotationType().getSimpleName());
            }
            for (Annotation[] parameter : method.getParameterAnnotations()) {
                found.add(method.getName() + " parameter " + parameter.length);
            }
        }
        Collections.sort(found);
        return found;
    }
}
