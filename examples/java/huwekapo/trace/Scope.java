package huwekapo.trace;

/** Which classes are recorded, and how. */
final class Scope {
    /**
     * PROGRAM: what is on the class path: always recorded.
     * LIBRARY: the JDK's collections, strings and boxes: recorded where the program, or another of them, calls them.
     * CURTAIN: class loading, input and output and the like: neither they nor what they call is recorded, but where they call the
     * program back.
     * NONE: left as it is.
     */
    static final int NONE = 0, PROGRAM = 1, LIBRARY = 2, CURTAIN = 3;

    // `a/b/` is a package with those below it, `a/b/C` a class with its inner ones; `!` leaves out, and the longest that fits decides.
    private static final String[] LIBRARIES = {
        "java/util/", "!java/util/concurrent/", "!java/util/jar/", "!java/util/zip/", "!java/util/logging/", "!java/util/stream/",
        "!java/util/function/", "!java/util/spi/", "!java/util/ServiceLoader", "!java/util/ResourceBundle", "!java/util/Locale",
        "!java/util/WeakHashMap", "!java/util/TimeZone", "!java/util/Timer",
        "java/lang/String", "java/lang/StringBuilder", "java/lang/StringBuffer", "java/lang/AbstractStringBuilder",
        "java/lang/StringLatin1", "java/lang/StringUTF16",
        "java/lang/Boolean", "java/lang/Byte", "java/lang/Character", "java/lang/Double", "java/lang/Integer", "java/lang/Long",
        "java/lang/Short",
    };
    private static final String[] CURTAINS = {
        "java/lang/Class", "java/lang/ClassLoader", "java/lang/Module", "java/lang/Runtime", "java/lang/System", "java/lang/Thread",
        "java/lang/Throwable", "java/lang/invoke/", "java/lang/reflect/",
        "java/io/", "java/net/", "java/nio/", "java/security/", "java/text/", "java/time/", "java/util/", "javax/",
        "com/sun/", "sun/", "!sun/instrument/", "jdk/internal/", "!jdk/internal/misc/", "!jdk/internal/org/objectweb/",
    };

    private static final ClassLoader PLATFORM = ClassLoader.getPlatformClassLoader();

    private Scope() {}

    /** The scope of a class, by what loads it and by its name, which has `/` between its parts. */
    static int of(ClassLoader by, String name) {
        if (name.startsWith("huwekapo/trace/")) return NONE;
        if (by != null && by != PLATFORM && !name.startsWith("jdk/internal/")) return PROGRAM;
        if (named(LIBRARIES, name)) return LIBRARY;
        return named(CURTAINS, name) ? CURTAIN : NONE;
    }

    static int of(Class<?> c) { return of(c.getClassLoader(), c.getName().replace('.', '/')); }

    /** Are objects of the class followed? Arrays are where their elements are, those of numbers always. */
    static boolean followed(Class<?> c) {
        while (c.isArray()) c = c.getComponentType();
        if (c.isPrimitive() || c == Object.class) return true;
        int scope = of(c);
        return scope == PROGRAM || scope == LIBRARY;
    }

    private static boolean named(String[] list, String name) {
        int longest = -1;
        boolean in = false;
        for (String entry : list) {
            boolean not = entry.charAt(0) == '!';
            int from = not ? 1 : 0, length = entry.length() - from;
            if (length <= longest || !name.regionMatches(0, entry, from, length)) continue;
            if (entry.endsWith("/") || name.length() == length || name.charAt(length) == '$') {
                longest = length;
                in = !not;
            }
        }
        return in;
    }
}
