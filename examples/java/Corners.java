import java.util.ArrayDeque;
import java.util.ArrayList;
import java.util.Arrays;
import java.util.Comparator;
import java.util.Deque;
import java.util.Iterator;
import java.util.List;
import java.util.Map;
import java.util.TreeMap;
import java.util.function.Supplier;
import java.util.stream.Collectors;

/** Tries the tracer: what a program may do with references that a tracer may miss. It prints one line. */
public class Corners {
    // Before main begins.
    static final Object[][] grid = new Object[3][4];
    static final List<Object> seen = new ArrayList<>();

    sealed interface Shape permits Circle, Square {}

    record Circle(Object centre) implements Shape {}

    record Square(Object corner, long side) implements Shape {}

    enum Colour { RED, GREEN }

    /** Names what it lies in: `this$0` is written before the constructor above is called. */
    class Link {
        Object other = Corners.this;
        Link next;
    }

    Link head;
    Object[] copy;

    static Object deep(int depth, Object carried) {
        Object mine = new Object[] {carried, depth};
        if (depth == 0) throw new IllegalStateException("bottom");
        try {
            return deep(depth - 1, mine);
        } finally {
            seen.add(mine);
        }
    }

    static <T> T called(Supplier<T> supplier) { return supplier.get(); }

    synchronized void links() {
        for (int i = 0; i < 50; i++) {
            Link link = new Link();
            link.next = head;
            head = link;
        }
        head.next.next.next = head;
        Link gone = head;
        head = null;
        copy = grid.clone();
        grid[1] = null;
        Object[] twice = {gone, gone};
        System.arraycopy(twice, 0, copy = new Object[2], 0, 2);
    }

    /** One slot, for an object and then for a number. */
    static int slots(int n) {
        if (n > 0) {
            Object object = new int[n];
            seen.add(object.getClass().getSimpleName());
        }
        long number = n;
        return (int) (number + 1);
    }

    /** Exceptions of the program that the JDK's own code catches, or lets pass. */
    static int callbacks(List<Object> list) {
        int caught = 0;
        for (int i = 0; i < 3; i++) {
            Object kept = new Object[] {list, i};
            try {
                List.of(1, 2, 3).stream().map(n -> refused(kept, n)).collect(Collectors.toList());
            } catch (IllegalArgumentException e) {
                caught++;
                list.add(kept);
            }
        }
        return caught;
    }

    static Object refused(Object kept, int n) {
        Object[] both = {kept, n};
        if (n == 2) throw new IllegalArgumentException("two");
        return both;
    }

    public static void main(String[] arguments) {
        for (int round = 0; round < 3; round++) {
            try {
                deep(20, arguments);
            } catch (IllegalStateException e) {
                grid[round % 2 * 2][round] = e.getMessage() + round;
            }
        }
        Corners corners = new Corners();
        corners.links();
        Object local = corners;
        Supplier<Object> supplier = () -> new Object[] {local, seen};
        seen.add(called(supplier));
        Map<String, Object> map = new TreeMap<>();
        for (int i = 0; i < 40; i++) {
            int shape = i;
            map.computeIfAbsent("key" + i % 7, key -> shape % 2 == 0 ? new Circle(key) : new Square(Colour.GREEN, shape));
        }
        seen.sort(Comparator.comparing(one -> one.getClass().getName()));
        for (Iterator<Object> all = seen.iterator(); all.hasNext(); ) if (all.next() instanceof Object[]) all.remove();
        int caught = callbacks(seen);
        Deque<Object> queue = new ArrayDeque<>();
        for (int i = 0; i < 30; i++) {
            queue.add(new long[i]);
            if (i % 3 == 0) queue.poll();
        }
        try {
            Object[] strings = new String[1];
            strings[0] = 1;
        } catch (ArrayStoreException e) {
            seen.add(e);
        }
        try {
            ((Corners) null).head = null;
        } catch (NullPointerException e) {
            seen.add("null");
        }
        Object[] longer = Arrays.copyOf(seen.toArray(), 2 * seen.size());
        StringBuilder text = new StringBuilder();
        for (Map.Entry<String, Object> entry : map.entrySet())
            text.append(entry.getKey()).append(entry.getValue() instanceof Circle ? " circle, " : " square, ");
        switch ("" + caught) {
            case "3":
                text.append(slots(2) + slots(0));
                break;
            default:
                text.append("wrong");
        }
        System.out.println(text + " " + queue.size() + " " + longer.length);
    }
}
