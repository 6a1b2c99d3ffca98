package huwekapo.trace;

import java.lang.reflect.Field;
import java.lang.reflect.Modifier;
import jdk.internal.misc.Unsafe;

/** A class: its number in the events, its size, and where its references stand. */
final class Layout {
    private static final Layout[] table = new Layout[1 << 12];
    private static int count;

    final Class<?> of;
    final boolean followed;
    final boolean isArray;
    /** The number in the events; 0 where it is not followed. */
    int number;
    /** The words of the fields, those of the classes above in front: long and double have two. */
    int words;
    /** The reference fields: where they lie in the memory, and their words' places. */
    Field[] fields = {};
    long[] offsets = {};
    int[] places = {};
    private final Layout next;

    private Layout(Class<?> c, Layout next) {
        this.of = c;
        this.next = next;
        this.isArray = c.isArray();
        this.followed = Scope.followed(c) && (isArray || isLaid(c));
    }

    static int count() { return count; }

    static Layout of(Class<?> c) {
        int at = System.identityHashCode(c) & (table.length - 1);
        for (Layout l = table[at]; l != null; l = l.next) if (l.of == c) return l;
        Layout l = table[at] = new Layout(c, table[at]);
        if (l.followed) {
            l.number = ++count;
            // What stands behind a slash is an address: of a class that a lambda made.
            String name = c.getName();
            int slash = name.indexOf('/');
            Events.writeClass(l.number, slash < 0 ? name : name.substring(0, slash));
        }
        return l;
    }

    /** Finds the fields. A class may have fields of classes that are missing, and then tells of none. */
    private boolean isLaid(Class<?> c) {
        try {
            lay(c);
            return true;
        } catch (LinkageError e) {
            System.err.println("trace: objects are not followed of " + c.getName() + ": " + e);
            return false;
        }
    }

    private void lay(Class<?> c) {
        if (c.getSuperclass() != null) lay(c.getSuperclass());
        for (Field f : c.getDeclaredFields()) {
            if (Modifier.isStatic(f.getModifiers())) continue;
            Class<?> type = f.getType();
            if (!type.isPrimitive()) {
                int n = fields.length;
                Field[] fs = new Field[n + 1];
                long[] os = new long[n + 1];
                int[] ps = new int[n + 1];
                System.arraycopy(fields, 0, fs, 0, n);
                System.arraycopy(offsets, 0, os, 0, n);
                System.arraycopy(places, 0, ps, 0, n);
                fs[n] = f;
                os[n] = Unsafe.getUnsafe().objectFieldOffset(f);
                ps[n] = words;
                fields = fs;
                offsets = os;
                places = ps;
            }
            words += type == long.class || type == double.class ? 2 : 1;
        }
    }

    /** The place of a field that an instruction names by its class's name, or by that of a class below; -1 where there is none. */
    int place(String owner, String name) {
        Class<?> c = of;
        while (c != null && !c.getName().equals(owner)) c = c.getSuperclass();
        for (; c != null; c = c.getSuperclass())
            for (int i = 0; i < fields.length; i++)
                if (fields[i].getDeclaringClass() == c && fields[i].getName().equals(name)) return places[i];
        return -1;
    }
}
