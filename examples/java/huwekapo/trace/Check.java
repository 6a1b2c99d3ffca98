package huwekapo.trace;

import java.io.IOException;
import java.lang.instrument.Instrumentation;
import java.lang.reflect.Field;
import java.util.Map;
import java.util.TreeMap;
import jdk.internal.misc.Unsafe;

/** The check at the end of the program: does every cell that was recorded have what the real field has? */
final class Check {
    private static final Map<String, Integer> differing = new TreeMap<>();
    private static long same, different;

    private Check() {}

    static void run(Instrumentation machine, Transformer transformer) {
        long events = Events.count();
        int classes = Layout.count();
        for (int n = 1, all = Recorder.count(); n <= all; n++) {
            Object o = Recorder.object(n);
            Layout l = Layout.of(o.getClass());
            if (o instanceof Object[]) {
                Object[] array = (Object[]) o;
                for (int i = 0; i < array.length; i++) note(Recorder.isAsRecorded(n, i, array[i]), l.of);
            }
            for (int i = 0; i < l.offsets.length; i++)
                note(Recorder.isAsRecorded(n, l.places[i], Unsafe.getUnsafe().getReference(o, l.offsets[i])), l.of);
        }
        for (Class<?> c : machine.getAllLoadedClasses()) {
            if (c.isArray() || Unsafe.getUnsafe().shouldBeInitialized(c) || !Scope.followed(c)) continue;
            for (Field f : fields(c)) {
                int cell = Setup.holdsReference(f) ? transformer.known(c.getName(), f.getName()) : -1;
                if (cell >= 0 && Recorder.wasRecorded(cell)) note(Recorder.isAsRecorded(cell, Setup.get(f)), c);
            }
        }
        String found = String.format("%d events, %d objects of %d classes; cells at the end: %d as recorded, %d not",
            events, Recorder.count(), classes, same, different);
        try {
            Events.close(found);
        } catch (IOException e) {
            throw new Error(e);
        }
        System.err.println("trace: " + found);
        differing.forEach((name, number) -> System.err.println("trace: not as recorded in " + name + ": " + number));
        if (Recorder.late() > 0) System.err.println("trace: written by code that is not traced, and recorded late: " + Recorder.late() + " cells");
        if (Recorder.elsewhere() > 0) System.err.println("trace: not recorded: " + Recorder.elsewhere() + " calls of methods in other threads");
        if (transformer.left() > 0) System.err.println("trace: not instrumented: " + transformer.left() + " classes, named above");
    }

    /** The fields of a class; none where one is of a class that is missing. */
    private static Field[] fields(Class<?> c) {
        try {
            return c.getDeclaredFields();
        } catch (LinkageError e) {
            return new Field[0];
        }
    }

    private static void note(boolean isSame, Class<?> c) {
        if (isSame) {
            same++;
        } else {
            different++;
            differing.merge(c.getName(), 1, Integer::sum);
        }
    }
}
