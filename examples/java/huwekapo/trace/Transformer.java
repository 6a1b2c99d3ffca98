package huwekapo.trace;

import java.lang.instrument.ClassFileTransformer;
import java.security.ProtectionDomain;
import java.util.ArrayList;
import java.util.HashMap;
import java.util.HashSet;
import java.util.List;
import java.util.Map;
import java.util.Set;
import jdk.internal.org.objectweb.asm.ClassReader;
import jdk.internal.org.objectweb.asm.ClassVisitor;
import jdk.internal.org.objectweb.asm.ClassWriter;
import jdk.internal.org.objectweb.asm.MethodVisitor;
import jdk.internal.org.objectweb.asm.Opcodes;
import jdk.internal.org.objectweb.asm.Type;
import jdk.internal.org.objectweb.asm.commons.JSRInlinerAdapter;
import jdk.internal.org.objectweb.asm.tree.AbstractInsnNode;
import jdk.internal.org.objectweb.asm.tree.ClassNode;
import jdk.internal.org.objectweb.asm.tree.FieldInsnNode;
import jdk.internal.org.objectweb.asm.tree.FrameNode;
import jdk.internal.org.objectweb.asm.tree.InsnList;
import jdk.internal.org.objectweb.asm.tree.InsnNode;
import jdk.internal.org.objectweb.asm.tree.LabelNode;
import jdk.internal.org.objectweb.asm.tree.LdcInsnNode;
import jdk.internal.org.objectweb.asm.tree.LineNumberNode;
import jdk.internal.org.objectweb.asm.tree.MethodInsnNode;
import jdk.internal.org.objectweb.asm.tree.MethodNode;
import jdk.internal.org.objectweb.asm.tree.TryCatchBlockNode;
import jdk.internal.org.objectweb.asm.tree.VarInsnNode;

/** Puts calls of the recorder into methods; nothing else of a class is changed. Each method has a new variable, its frame's number. */
final class Transformer implements ClassFileTransformer, Opcodes {
    private static final String RECORDER = "huwekapo/trace/Recorder";
    private static final String OBJECT = "Ljava/lang/Object;";

    private final String main;
    private final Map<String, Integer> statics = new HashMap<>();
    private final Map<String, Integer> literals = new HashMap<>();
    private int left;

    Transformer(String main) { this.main = main; }

    /** The static cell of a field. */
    synchronized int cell(String owner, String name) {
        return statics.computeIfAbsent(owner.replace('/', '.') + " " + name, key -> Recorder.newStatic());
    }

    /** The same, -1 where there is none. */
    synchronized int known(String owner, String name) { return statics.getOrDefault(owner + " " + name, -1); }

    private synchronized int literal(String text) { return literals.computeIfAbsent(text, key -> Recorder.newStatic()); }

    /** How many classes were left as they are, since they could not be instrumented. */
    int left() { return left; }

    @Override
    public byte[] transform(ClassLoader by, String name, Class<?> before, ProtectionDomain domain, byte[] bytes) {
        // What works here is none of the program's, and may not be asked for its own sake.
        if (name == null || name.startsWith("huwekapo/trace/") || name.startsWith("jdk/internal/org/objectweb/")) return null;
        // This runs in the program's thread, where that first needs the class.
        int frame = Recorder.enter(Scope.CURTAIN);
        try {
            int scope = Scope.of(by, name);
            return scope == Scope.NONE ? null : instrumented(bytes, scope);
        } catch (Throwable e) {
            left++;
            System.err.println("trace: not instrumented: " + name + ": " + e);
            return null;
        } finally {
            Recorder.leave(frame);
        }
    }

    @SuppressWarnings("deprecation")    // what ASM 8 has for sealed classes
    private byte[] instrumented(byte[] bytes, int scope) {
        ClassReader reader = new ClassReader(bytes);
        ClassNode c = new ClassNode();
        List<String> permitted = new ArrayList<>();
        reader.accept(new ClassVisitor(ASM8, c) {
            // Subroutines, which old compilers made, would stand in the way of frames.
            @Override
            public MethodVisitor visitMethod(int access, String name, String type, String signature, String[] exceptions) {
                MethodVisitor next = super.visitMethod(access, name, type, signature, exceptions);
                return new JSRInlinerAdapter(next, access, name, type, signature, exceptions);
            }

            // What may extend a sealed class: the tree of this ASM has no place for it.
            @Override
            public void visitPermittedSubclassExperimental(String name) { permitted.add(name); }
        }, ClassReader.EXPAND_FRAMES);
        for (MethodNode m : c.methods)
            if ((m.access & (ACC_NATIVE | ACC_ABSTRACT)) == 0) new Method(c, m, scope).instrument();
        // With the constant pool of the reader: attributes that this ASM does not know stay right.
        ClassWriter writer = new ClassWriter(reader, ClassWriter.COMPUTE_MAXS);
        c.accept(writer);
        for (String name : permitted) writer.visitPermittedSubclassExperimental(name);
        return writer.toByteArray();
    }

    private final class Method {
        private final ClassNode c;
        private final MethodNode m;
        private final int scope;
        private final int frame;            // the new variable
        private final boolean isConstructor;
        private final boolean isStatic;
        private final Set<Integer> references = new HashSet<>();    // slots that references are ever in

        Method(ClassNode c, MethodNode m, int scope) {
            this.c = c;
            this.m = m;
            this.scope = scope;
            this.frame = m.maxLocals;
            this.isConstructor = m.name.equals("<init>");
            this.isStatic = (m.access & ACC_STATIC) != 0;
        }

        void instrument() {
            AbstractInsnNode above = isConstructor ? aboveCall() : null;
            if (isConstructor && above == null) return;    // java.lang.Object
            InsnList first = list(scope, call("enter", "(I)I"), variable(ISTORE, frame));
            boolean isMain = c.name.equals(main) && isStatic && (m.name.equals("main") || m.name.equals("<clinit>"));
            if (isMain) first.insert(call("start", "()V"));
            if (scope != Scope.CURTAIN) parameters(first);
            boolean isReady = !isConstructor;              // before, `this` may not be handed on
            for (AbstractInsnNode i : m.instructions.toArray()) {
                if (i.getOpcode() == ASTORE) references.add(((VarInsnNode) i).var);
            }
            for (AbstractInsnNode i : m.instructions.toArray()) {
                int code = i.getOpcode();
                if (code >= IRETURN && code <= RETURN) {
                    if (code == ARETURN && scope != Scope.CURTAIN) before(i, op(DUP), variable(ILOAD, frame), call("result", "(" + OBJECT + "I)V"));
                    before(i, variable(ILOAD, frame), call("leave", "(I)V"));
                } else if (i instanceof FrameNode) {
                    pad((FrameNode) i);
                } else if (scope != Scope.CURTAIN) {
                    instruction(i, code, isReady);
                }
                if (i == above) {
                    isReady = true;
                    if (scope != Scope.CURTAIN) behind(i, variable(ALOAD, 0), variable(ILOAD, frame), call("made", "(" + OBJECT + "I)V"), local(0));
                }
            }
            handlers();
            m.instructions.insert(first);
            m.maxLocals++;
        }

        private void parameters(InsnList first) {
            int slot = isStatic ? 0 : 1;
            if (!isStatic) {
                references.add(0);
                if (!isConstructor) first.add(local(0));
            }
            for (Type t : Type.getArgumentTypes(m.desc)) {
                if (isReference(t.getDescriptor())) {
                    references.add(slot);
                    first.add(local(slot));
                }
                slot += t.getSize();
            }
        }

        private void instruction(AbstractInsnNode i, int code, boolean isReady) {
            switch (code) {
                case ASTORE:
                    before(i, op(DUP), ((VarInsnNode) i).var, variable(ILOAD, frame), call("local", "(" + OBJECT + "II)V"));
                    break;
                case ISTORE:
                case FSTORE:
                    unset(i, ((VarInsnNode) i).var);
                    break;
                case LSTORE:
                case DSTORE:
                    unset(i, ((VarInsnNode) i).var);
                    unset(i, ((VarInsnNode) i).var + 1);
                    break;
                case PUTFIELD:
                    FieldInsnNode f = (FieldInsnNode) i;
                    if (isReady && isReference(f.desc))
                        before(i, op(DUP2), Recorder.field(f.owner.replace('/', '.'), f.name), variable(ILOAD, frame),
                            call("stored", "(" + OBJECT + OBJECT + "II)V"));
                    break;
                case PUTSTATIC:
                    FieldInsnNode s = (FieldInsnNode) i;
                    if (isReference(s.desc))
                        before(i, op(DUP), cell(s.owner, s.name), variable(ILOAD, frame), call("staticStored", "(" + OBJECT + "II)V"));
                    break;
                case AASTORE:
                    before(i, variable(ILOAD, frame));
                    m.instructions.set(i, call("arrayStore", "([" + OBJECT + "I" + OBJECT + "I)V"));
                    break;
                case NEWARRAY:
                case ANEWARRAY:
                case MULTIANEWARRAY:
                    behind(i, op(DUP), variable(ILOAD, frame), call("made", "(" + OBJECT + "I)V"));
                    break;
                case LDC:
                    Object constant = ((LdcInsnNode) i).cst;
                    if (constant instanceof String)
                        behind(i, op(DUP), literal((String) constant), variable(ILOAD, frame), call("literal", "(" + OBJECT + "II)V"));
                    break;
                case INVOKESTATIC:
                    MethodInsnNode called = (MethodInsnNode) i;
                    if (called.name.equals("arraycopy") && called.owner.equals("java/lang/System")) {
                        before(i, variable(ILOAD, frame));
                        m.instructions.set(i, call("arraycopy", "(" + OBJECT + "I" + OBJECT + "III)V"));
                    }
                    break;
                default:
            }
        }

        private void unset(AbstractInsnNode i, int slot) {
            if (references.contains(slot)) before(i, slot, variable(ILOAD, frame), call("unset", "(II)V"));
        }

        private void handlers() {
            Set<AbstractInsnNode> done = new HashSet<>();
            for (TryCatchBlockNode t : m.tryCatchBlocks) {
                AbstractInsnNode at = t.handler;
                while (at.getNext() instanceof LabelNode || at.getNext() instanceof LineNumberNode || at.getNext() instanceof FrameNode)
                    at = at.getNext();
                if (done.add(at)) behind(at, variable(ILOAD, frame), call("caught", "(I)V"));
            }
        }

        /** In a constructor the call of that above, or of another of this class: the first that is not of a new object. */
        private AbstractInsnNode aboveCall() {
            int made = 0;
            for (AbstractInsnNode i : m.instructions.toArray()) {
                if (i.getOpcode() == NEW) made++;
                if (i.getOpcode() == INVOKESPECIAL && ((MethodInsnNode) i).name.equals("<init>") && made-- == 0) return i;
            }
            return null;
        }

        /** The frame's number in what the verifier is told of the variables. */
        private void pad(FrameNode f) {
            List<Object> locals = f.local == null ? new ArrayList<>() : new ArrayList<>(f.local);
            int used = 0;
            for (Object o : locals) used += o == LONG || o == DOUBLE ? 2 : 1;
            for (; used < frame; used++) locals.add(TOP);
            locals.add(INTEGER);
            f.local = locals;
        }

        private InsnList local(int slot) { return list(variable(ALOAD, slot), slot, variable(ILOAD, frame), call("local", "(" + OBJECT + "II)V")); }

        private void before(AbstractInsnNode i, Object... parts) { m.instructions.insertBefore(i, list(parts)); }

        private void behind(AbstractInsnNode i, Object... parts) { m.instructions.insert(i, list(parts)); }
    }

    /** A list of instructions: a number stands for what loads it. */
    private static InsnList list(Object... parts) {
        InsnList l = new InsnList();
        for (Object p : parts) {
            if (p instanceof InsnList) l.add((InsnList) p);
            else l.add(p instanceof Integer ? new LdcInsnNode(p) : (AbstractInsnNode) p);
        }
        return l;
    }

    private static AbstractInsnNode op(int code) { return new InsnNode(code); }

    private static AbstractInsnNode variable(int code, int slot) { return new VarInsnNode(code, slot); }

    private static AbstractInsnNode call(String name, String type) { return new MethodInsnNode(INVOKESTATIC, RECORDER, name, type, false); }

    private static boolean isReference(String type) { return type.charAt(0) == 'L' || type.charAt(0) == '['; }
}
