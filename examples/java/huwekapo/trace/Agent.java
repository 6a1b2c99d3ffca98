package huwekapo.trace;

import java.lang.instrument.Instrumentation;
import java.util.jar.JarFile;

/**
 * java -javaagent:huwekapo-trace.jar='MAIN EVENTS': records what a program does from its class MAIN on, into the file EVENTS.
 *
 * Classes of the JDK are instrumented too, and see the boot path alone. So the recorder has to lie there: this class, which the virtual
 * machine loads elsewhere, only puts it there.
 */
public final class Agent {
    private Agent() {}

    public static void premain(String options, Instrumentation machine) throws Exception {
        String jar = Agent.class.getProtectionDomain().getCodeSource().getLocation().toURI().getPath();
        machine.appendToBootstrapClassLoaderSearch(new JarFile(jar));
        int space = options.indexOf(' ');
        Class.forName("huwekapo.trace.Setup", true, null)
            .getMethod("setup", String.class, String.class, Instrumentation.class)
            .invoke(null, options.substring(0, space), options.substring(space + 1), machine);
    }
}
