package depot;

import java.lang.annotation.Documented;
import java.lang.annotation.ElementType;
import java.lang.annotation.Inherited;
import java.lang.annotation.Retention;
import java.lang.annotation.RetentionPolicy;
import java.lang.annotation.Target;

/** An annotation with elements of every kind, their defaults, and an annotation inside. */
@Documented
@Inherited
@Retention(RetentionPolicy.RUNTIME)
@Target({ElementType.TYPE, ElementType.FIELD, ElementType.METHOD, ElementType.PARAMETER, ElementType.CONSTRUCTOR})
public @interface Audited {
    String by() default "nobody";

    int level() default 1;

    long since() default 20_000_101L;

    double weight() default 0.5;

    float share() default 1f;

    char mark() default '\u00a7';

    byte small() default -1;

    short medium() default 1000;

    boolean strict() default false;

    Zone zone() default Zone.TOWN;

    Class<?> tool() default Void.class;

    String[] tags() default {};

    Reason[] reasons() default {@Reason("habit")};

    /** An annotation that stands in another one, kept in class files alone. */
    @Retention(RetentionPolicy.CLASS)
    @interface Reason {
        String value();
    }
}
