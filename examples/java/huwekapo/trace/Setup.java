package huwekapo.trace;

import java.lang.instrument.Instrumentation;
import java.lang.reflect.Field;
import java.lang.reflect.Modifier;
import java.util.ArrayList;
import java.util.Comparator;
import java.util.HashSet;
import java.util.List;
import java.util.Set;
import jdk.internal.misc.Unsafe;

/** On the boot path: opens the file, and has classes transformed, those that are loaded already too. */
public final class Setup {
    private Setup() {}

    public static void setup(String main, String file, Instrumentation machine) throws Exception {
        Transformer transformer = new Transformer(main.replace('.', '/'));
        Recorder.open(file, () -> Check.run(machine, transformer));
        // What the transformer needs has to be there before it is asked for a class.
        Class.forName("huwekapo.trace.Scope", true, null);
        machine.addTransformer(transformer, true);
        // Again and again: the transformer is not asked for classes that it needs itself.
        Set<Class<?>> done = new HashSet<>();
        for (List<Class<?>> more = loaded(machine, done); !more.isEmpty(); more = loaded(machine, done)) {
            machine.retransformClasses(more.toArray(new Class<?>[0]));
            done.addAll(more);
        }
        for (Class<?> c : sorted(done)) {
            if (Scope.of(c) != Scope.LIBRARY || Unsafe.getUnsafe().shouldBeInitialized(c)) continue;
            for (Field f : c.getDeclaredFields())
                if (holdsReference(f)) Recorder.heldBefore(get(f), transformer.cell(c.getName(), f.getName()));
        }
    }

    private static List<Class<?>> loaded(Instrumentation machine, Set<Class<?>> done) {
        Set<Class<?>> found = new HashSet<>();
        for (Class<?> c : machine.getAllLoadedClasses())
            if (!c.isArray() && machine.isModifiableClass(c) && Scope.of(c) != Scope.NONE && !done.contains(c)) found.add(c);
        return sorted(found);
    }

    /** In one order, so that the same program leaves the same file. */
    private static List<Class<?>> sorted(Set<Class<?>> classes) {
        List<Class<?>> found = new ArrayList<>(classes);
        found.sort(Comparator.comparing(Class::getName));
        return found;
    }

    /** Is it a static field of references? */
    static boolean holdsReference(Field f) { return Modifier.isStatic(f.getModifiers()) && !f.getType().isPrimitive(); }

    /** What a static field has, whoever may see it. */
    static Object get(Field f) {
        Unsafe unsafe = Unsafe.getUnsafe();
        return unsafe.getReference(unsafe.staticFieldBase(f), unsafe.staticFieldOffset(f));
    }
}
