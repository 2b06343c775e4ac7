# The example of the README: methods that are rewritten, what is written of them, and what both folders show; and where there is a JVM, the same
# results on it.

escapes=$root/examples/escapes
fresh
run plan "$escapes/in" --lib lib
check "an example is planned" 0 "Main <init> ()V Host
Main norm (II)I Rewritten sites=1 news=1 enters=0 bytes=55
Main sum (I)I Rewritten sites=1 news=0 enters=0 bytes=47
Main locked (I)I Rewritten sites=1 news=0 enters=0 bytes=26
Point <init> (II)V Host
Point y ()I NoSite
Range <init> (I)V Host
Range hasNext ()Z NoSite
Range next ()I NoSite" absent out
run both "$escapes/in" "$escapes/script" --lib lib
check "and run before and after" 0 "before
0 result i:7 ; a=1 m=0
1 call L use (Ljava/lang/Object;)V r:0=Point ; a=2 m=0
2 result i:-1 ; a=2 m=0
3 result i:45 ; a=3 m=0
4 result i:6 ; a=4 m=1
end Stopped
after
0 result i:7 ; a=0 m=0
1 call L use (Ljava/lang/Object;)V r:0=Point ; a=1 m=0
2 result i:-1 ; a=1 m=0
3 result i:45 ; a=1 m=0
4 result i:6 ; a=1 m=0
end Stopped" absent out
run optimise "$escapes/in" out --lib lib
check "and rewritten" 0 "done files=3 classes=3 rewritten=3 kept=6" same_names "$escapes/in" out
run verify out --lib lib
check "what is written verifies, with one constructor more" 0 "verified 3 10" true
run optimise out again --lib lib
check "of which nothing is rewritten" 0 "done files=3 classes=3 rewritten=0 kept=10" same out again

# Prints what methods of the example give on the JVM.
results() { java -Xverify:all -cp "$1:classes" Results 2>&1; }

if ! command -v javac >/dev/null || ! command -v java >/dev/null; then
    skipped "the example on the JVM" "javac or java is missing"
else
    mkdir src classes
    cat >src/L.java <<'JAVA'
public class L {
    public static void use(Object seen) {
        System.out.println(seen.getClass().getName());
    }
}
JAVA
    cat >src/Results.java <<'JAVA'
import java.lang.reflect.Method;

class Results {
    static void call(String name, Class<?>[] types, Object... values) throws Exception {
        Method method = Class.forName("Main").getDeclaredMethod(name, types);
        method.setAccessible(true);
        System.out.println(method.invoke(null, values));
    }

    public static void main(String[] words) throws Exception {
        Class<?>[] two = {int.class, int.class};
        Class<?>[] one = {int.class};
        call("norm", two, 3, 4);
        call("norm", two, -3, 4);
        call("sum", one, 10);
        call("locked", one, 5);
    }
}
JAVA
    javac -d classes src/*.java >/dev/null 2>&1
    status=0
    results out >"$work/printed"
    check "the example on the JVM" 0 "7
Point
-1
45
6" eval '[ "$(results "$escapes/in")" = "$(results out)" ]'
fi
