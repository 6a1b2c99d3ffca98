package huwekapo.trace;

import java.io.FileOutputStream;
import java.io.IOException;

/** The file of events. It has a buffer and digits of its own: classes that are instrumented are used for its bytes alone. */
final class Events {
    private static FileOutputStream out;
    private static final byte[] buffer = new byte[1 << 16];
    private static int filled;
    private static long count;

    private Events() {}

    static void open(String file) throws IOException { out = new FileOutputStream(file); }

    static boolean isOpen() { return out != null; }

    static long count() { return count; }

    static void close(String last) throws IOException {
        put('#');
        name(last);
        put('\n');
        flush();
        out.close();
        out = null;
    }

    static void write(char kind) {
        begin(kind);
        put('\n');
    }

    static void write(char kind, long one) {
        begin(kind);
        number(one);
        put('\n');
    }

    static void write(char kind, long one, long two) {
        begin(kind);
        number(one);
        number(two);
        put('\n');
    }

    static void write(char kind, long one, long two, long three) {
        begin(kind);
        number(one);
        number(two);
        number(three);
        put('\n');
    }

    /** A class, with its name. */
    static void writeClass(int number, String name) {
        begin('C');
        number(number);
        name(name);
        put('\n');
    }

    /** A new object. */
    static void writeMade(int number, int ofClass, char kind, long bytes) {
        begin('A');
        number(number);
        number(ofClass);
        put(' ');
        put(kind);
        number(bytes);
        put('\n');
    }

    private static void begin(char kind) {
        count++;
        put(kind);
    }

    private static void number(long value) {
        put(' ');
        if (filled + 20 > buffer.length) flush();
        int from = filled;
        do {
            buffer[filled++] = (byte) ('0' + value % 10);
            value /= 10;
        } while (value > 0);
        for (int i = from, j = filled - 1; i < j; i++, j--) {
            byte digit = buffer[i];
            buffer[i] = buffer[j];
            buffer[j] = digit;
        }
    }

    /** A name in ASCII: a letter beyond it, as a class may have, is written as `?`. */
    private static void name(String name) {
        put(' ');
        for (int i = 0; i < name.length(); i++) put(name.charAt(i) < 128 ? name.charAt(i) : '?');
    }

    private static void put(int c) {
        if (filled == buffer.length) flush();
        buffer[filled++] = (byte) c;
    }

    private static void flush() {
        try {
            out.write(buffer, 0, filled);
        } catch (IOException e) {
            throw new Error(e);
        }
        filled = 0;
    }
}
