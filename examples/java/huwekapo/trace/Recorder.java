package huwekapo.trace;

import java.io.IOException;
import java.lang.reflect.Array;
import jdk.internal.misc.Unsafe;

/**
 * Writes the events of one thread. Instrumented code calls it, in each call with the number of its frame, as `enter` gave it. It has
 * tables of its own: what it calls of the JDK may be instrumented, and then calls it back, which is passed over.
 */
public final class Recorder {
    private static final Unsafe UNSAFE = Unsafe.getUnsafe();

    private static Thread thread;    // the one that is recorded; null before and behind
    private static boolean busy;     // calls are the recorder's own doing
    private static Runnable atExit;
    private static long elsewhere;   // methods of the program that other threads entered

    // Objects by identity, and by number; none is ever forgotten, so that no identity is met twice.
    private static Object[] table = new Object[1 << 16];
    private static int[] numbers = new int[1 << 16];
    private static Object[] objects = new Object[1 << 15];
    private static int[][] cells = new int[1 << 15][];    // what each cell names, as recorded
    private static int count;
    private static long late;                             // cells that code behind a curtain wrote, recorded when next met

    // Fields that instrumented code writes, by the names of class and field; their places are found when first met.
    private static String[] fieldOwners = new String[1 << 12];
    private static String[] fieldNames = new String[1 << 12];
    private static int[] fieldPlaces = new int[1 << 12];
    private static int fields;

    // Static cells: what each names, as recorded, -1 where nothing was. And what the JDK's own named before the program began: a list for
    // each bucket of identities.
    private static int[] statics = new int[1 << 12];
    private static int staticCount;
    private static final int[] heldFirst = new int[1 << 12];
    private static Object[] held = new Object[1 << 12];
    private static int[] heldCell = new int[1 << 12];
    private static int[] heldNext = new int[1 << 12];
    private static int heldCount;

    // Frames: whether they are behind a curtain, whether their beginning was written, what their variables name.
    private static boolean[] hidden = new boolean[1 << 10];
    private static boolean[] written = new boolean[1 << 10];
    private static int[][] variables = new int[1 << 10][];
    private static int depth;

    private Recorder() {}

    // Called by the set-up and the transformer.

    static void open(String file, Runnable check) throws IOException {
        Events.open(file);
        atExit = check;
    }

    /** A number for a field that instrumented code writes. */
    static synchronized int field(String owner, String name) {
        for (int i = 0; i < fields; i++) if (fieldNames[i].equals(name) && fieldOwners[i].equals(owner)) return i;
        if (fields == fieldNames.length) {
            String[] owners = new String[2 * fields], names = new String[2 * fields];
            System.arraycopy(fieldOwners, 0, owners, 0, fields);
            System.arraycopy(fieldNames, 0, names, 0, fields);
            fieldOwners = owners;
            fieldNames = names;
            fieldPlaces = longer(fieldPlaces);
        }
        fieldOwners[fields] = owner;
        fieldNames[fields] = name;
        fieldPlaces[fields] = -1;
        return fields++;
    }

    /** A new static cell, for a static field or a literal. */
    static synchronized int newStatic() {
        if (staticCount == statics.length) statics = longer(statics);
        statics[staticCount] = -1;
        return staticCount++;
    }

    /** What a static field names before the program begins: it is recorded when it is first met. */
    static void heldBefore(Object o, int cell) {
        if (o == null) return;
        int n = ++heldCount;
        if (n == held.length) {
            held = longer(held);
            heldCell = longer(heldCell);
            heldNext = longer(heldNext);
        }
        int bucket = System.identityHashCode(o) & (heldFirst.length - 1);
        held[n] = o;
        heldCell[n] = cell;
        heldNext[n] = heldFirst[bucket];
        heldFirst[bucket] = n;
    }

    // Called by instrumented code.

    /** The program begins: its first class is initialized, or its main method called. */
    public static void start() {
        if (thread != null || busy || !Events.isOpen()) return;
        busy = true;
        Runtime.getRuntime().addShutdownHook(new Thread(Recorder::stop));
        thread = Thread.currentThread();
        busy = false;
    }

    /** A method begins. The number of its frame; -1 where nothing is recorded. */
    public static int enter(int scope) {
        if (away()) {
            if (scope == Scope.PROGRAM && thread != null && !busy) elsewhere++;
            return -1;
        }
        if (depth == hidden.length) {
            hidden = longer(hidden);
            written = longer(written);
            variables = longer(variables);
        }
        hidden[depth] = scope == Scope.CURTAIN || scope == Scope.LIBRARY && depth > 0 && hidden[depth - 1];
        written[depth] = false;
        return depth++;
    }

    /** A method returns. */
    public static void leave(int frame) {
        if (frame < 0 || away()) return;
        busy = true;
        unwind(frame);
        busy = false;
    }

    /** A handler of the frame has caught an exception: the frames above are gone, and the recorder's own where it ran out of stack. */
    public static void caught(int frame) {
        if (frame < 0 || Thread.currentThread() != thread) return;
        busy = true;
        unwind(frame + 1);
        busy = false;
    }

    /** A local variable is written. */
    public static void local(Object o, int slot, int frame) {
        if (!begin(frame)) return;
        variable(slot, number(o), frame);
        busy = false;
    }

    /** A local variable that may have named an object has a number now. */
    public static void unset(int slot, int frame) {
        if (!begin(frame)) return;
        variable(slot, 0, frame);
        busy = false;
    }

    /** A method hands an object back: it stands on the stack of its caller. */
    public static void result(Object o, int frame) {
        if (!begin(frame)) return;
        int n = number(o);
        if (n != 0) Events.write('R', n);
        busy = false;
    }

    /** An object or an array is made. */
    public static void made(Object o, int frame) {
        if (!begin(frame)) return;
        number(o);
        busy = false;
    }

    /** A field is about to be written. */
    public static void stored(Object owner, Object value, int field, int frame) {
        if (owner == null || !begin(frame)) return;
        int a = number(owner), v = number(value);
        if (a != 0) {
            if (fieldPlaces[field] < 0) fieldPlaces[field] = Layout.of(owner.getClass()).place(fieldOwners[field], fieldNames[field]);
            if (fieldPlaces[field] >= 0) cell(a, fieldPlaces[field], v);
        }
        busy = false;
    }

    /** A static field is about to be written. */
    public static void staticStored(Object value, int cell, int frame) {
        if (!begin(frame)) return;
        staticCell(cell, number(value));
        busy = false;
    }

    /** A literal is loaded: its class holds it from its first use on. */
    public static void literal(Object value, int cell, int frame) {
        if (!begin(frame)) return;
        int before = count, v = number(value);
        if (v > before) staticCell(cell, v);
        busy = false;
    }

    /** In place of the instruction that writes an array's element. */
    public static void arrayStore(Object[] array, int index, Object value, int frame) {
        array[index] = value;
        if (!begin(frame)) return;
        int a = number(array), v = number(value);
        if (a != 0) cell(a, index, v);
        busy = false;
    }

    /** In place of System.arraycopy. */
    public static void arraycopy(Object from, int at, Object to, int first, int length, int frame) {
        System.arraycopy(from, at, to, first, length);
        if (!(to instanceof Object[]) || !begin(frame)) return;
        int a = number(to);
        Object[] array = (Object[]) to;
        for (int i = first; a != 0 && i < first + length; i++) cell(a, i, number(array[i]));
        busy = false;
    }

    private static boolean away() { return thread == null || busy || Thread.currentThread() != thread; }

    /** Is what this frame does recorded? Then the recorder is busy, and frames above, which an exception has ended, are gone. */
    private static boolean begin(int frame) {
        if (frame < 0 || away() || hidden[frame]) return false;
        busy = true;
        unwind(frame + 1);
        return true;
    }

    private static void unwind(int frame) { while (depth > frame) if (written[--depth]) Events.write('X'); }

    private static void variable(int slot, int n, int frame) {
        if (!written[frame]) {
            if (n == 0) return;
            if (variables[frame] != null) for (int i = 0; i < variables[frame].length; i++) variables[frame][i] = 0;
            written[frame] = true;
            Events.write('E');
        }
        if (variables[frame] == null || variables[frame].length <= slot) {
            int[] slots = new int[slot + 8];
            if (variables[frame] != null) System.arraycopy(variables[frame], 0, slots, 0, variables[frame].length);
            variables[frame] = slots;
        }
        // The same object again is another use of it.
        if (n == 0 && variables[frame][slot] == 0) return;
        variables[frame][slot] = n;
        Events.write('L', slot, n);
    }

    // Objects.

    private static void cell(int owner, int place, int n) {
        cells[owner][place] = n;
        Events.write('U', owner, place, n);
    }

    private static void staticCell(int cell, int n) {
        statics[cell] = n;
        Events.write('S', cell, n);
    }

    /**
     * The object's number; 0 for null and for what is not followed. Where it is met for the first time it is recorded with all that it
     * leads to; where it is met again, with what code behind a curtain has written into its fields meanwhile.
     */
    private static int number(Object o) {
        if (o == null) return 0;
        int before = count, n = met(o);
        if (n != 0 && n <= before && !(o instanceof Object[])) contents(n, true);
        for (int i = before + 1; i <= count; i++) contents(i, false);
        return n;
    }

    private static int met(Object o) {
        int at = find(o);
        if (table[at] == o) return numbers[at];
        Layout l = Layout.of(o.getClass());
        if (!l.followed) return 0;
        if (2 * count > table.length) {
            grow();
            at = find(o);
        }
        int n = ++count;
        if (n == objects.length) {
            objects = longer(objects);
            cells = longer(cells);
        }
        table[at] = o;
        numbers[at] = n;
        objects[n] = o;
        if (!l.isArray) {
            cells[n] = new int[l.words];
            Events.writeMade(n, l.number, 'o', 4L * l.words);
        } else if (o instanceof Object[]) {
            cells[n] = new int[((Object[]) o).length];
            Events.writeMade(n, l.number, 'r', 4L * cells[n].length);
        } else {
            Events.writeMade(n, l.number, 'n', (long) Array.getLength(o) * UNSAFE.arrayIndexScale(o.getClass()));
        }
        for (int i = heldFirst[System.identityHashCode(o) & (heldFirst.length - 1)]; i != 0; i = heldNext[i])
            if (held[i] == o && statics[heldCell[i]] < 0) staticCell(heldCell[i], n);
        return n;
    }

    /** Records the cells of an object that are not as recorded. */
    private static void contents(int n, boolean again) {
        Object o = objects[n];
        if (o instanceof Object[]) {
            Object[] array = (Object[]) o;
            for (int i = 0; i < array.length; i++) content(n, i, array[i], again);
        } else if (cells[n] != null) {
            Layout l = Layout.of(o.getClass());
            for (int i = 0; i < l.offsets.length; i++) content(n, l.places[i], UNSAFE.getReference(o, l.offsets[i]), again);
        }
    }

    private static void content(int n, int place, Object value, boolean again) {
        int v = value == null ? 0 : met(value);
        if (v == cells[n][place]) return;
        if (again) late++;
        cell(n, place, v);
    }

    private static int find(Object o) {
        int mask = table.length - 1, at = (System.identityHashCode(o) * 0x9E3779B1 >>> 7) & mask;
        while (table[at] != null && table[at] != o) at = (at + 1) & mask;
        return at;
    }

    private static void grow() {
        Object[] were = table;
        int[] had = numbers;
        table = new Object[2 * were.length];
        numbers = new int[2 * were.length];
        for (int i = 0; i < were.length; i++)
            if (were[i] != null) {
                int at = find(were[i]);
                table[at] = were[i];
                numbers[at] = had[i];
            }
    }

    private static int[] longer(int[] a) {
        int[] b = new int[2 * a.length];
        System.arraycopy(a, 0, b, 0, a.length);
        return b;
    }

    private static boolean[] longer(boolean[] a) {
        boolean[] b = new boolean[2 * a.length];
        System.arraycopy(a, 0, b, 0, a.length);
        return b;
    }

    private static int[][] longer(int[][] a) {
        int[][] b = new int[2 * a.length][];
        System.arraycopy(a, 0, b, 0, a.length);
        return b;
    }

    private static Object[] longer(Object[] a) {
        Object[] b = new Object[2 * a.length];
        System.arraycopy(a, 0, b, 0, a.length);
        return b;
    }

    // The end.

    private static synchronized void stop() {
        thread = null;
        busy = true;
        atExit.run();
    }

    static int count() { return count; }

    static Object object(int n) { return objects[n]; }

    static long late() { return late; }

    static long elsewhere() { return elsewhere; }

    /** Is this cell as recorded? */
    static boolean isAsRecorded(int n, int place, Object value) { return recorded(value) == cells[n][place]; }

    /** Is this static cell as recorded, or was it never? */
    static boolean isAsRecorded(int cell, Object value) { return statics[cell] < 0 || statics[cell] == recorded(value); }

    static boolean wasRecorded(int cell) { return statics[cell] >= 0; }

    /** The number of an object as recorded, -1 where it had to have one. */
    private static int recorded(Object o) {
        if (o == null) return 0;
        int at = find(o);
        return table[at] == o ? numbers[at] : Layout.of(o.getClass()).followed ? -1 : 0;
    }
}
