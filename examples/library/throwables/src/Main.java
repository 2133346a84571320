import java.io.EOFException;
import java.io.FileNotFoundException;
import java.io.IOException;
import java.io.UnsupportedEncodingException;
import java.util.ConcurrentModificationException;
import java.util.EmptyStackException;
import java.util.InputMismatchException;
import java.util.NoSuchElementException;

/** Each throwable of the library, without and with a message: its text, and what it is below. */
public class Main {
    static String kinds(Throwable it) {
        StringBuilder kinds = new StringBuilder();
        kinds.append(it instanceof Exception ? " Exception" : "").append(it instanceof RuntimeException ? " RuntimeException" : "");
        kinds.append(it instanceof Error ? " Error" : "").append(it instanceof LinkageError ? " LinkageError" : "");
        kinds.append(it instanceof VirtualMachineError ? " VirtualMachineError" : "");
        kinds.append(it instanceof IncompatibleClassChangeError ? " IncompatibleClassChangeError" : "");
        kinds.append(it instanceof ClassFormatError ? " ClassFormatError" : "");
        kinds.append(it instanceof ReflectiveOperationException ? " ReflectiveOperationException" : "");
        kinds.append(it instanceof IOException ? " IOException" : "");
        kinds.append(it instanceof IllegalArgumentException ? " IllegalArgumentException" : "");
        kinds.append(it instanceof IllegalStateException ? " IllegalStateException" : "");
        kinds.append(it instanceof IndexOutOfBoundsException ? " IndexOutOfBoundsException" : "");
        kinds.append(it instanceof NoSuchElementException ? " NoSuchElementException" : "");
        return kinds.toString();
    }

    static void show(Throwable... each) {
        for (Throwable it : each) {
            System.out.println(it.toString() + " / " + it.getMessage() + kinds(it));
        }
    }

    static void thrown(RuntimeException it) {
        try {
            throw it;
        } catch (NumberFormatException e) {
            System.out.println("number " + e.getMessage());
        } catch (IllegalArgumentException e) {
            System.out.println("argument " + e.getMessage());
        } catch (NoSuchElementException e) {
            System.out.println("element " + e.getMessage());
        } catch (RuntimeException e) {
            System.out.println("other " + e.toString());
        } finally {
            System.out.println("finally");
        }
    }

    static void showErrors() {
        show(new AbstractMethodError(), new AbstractMethodError("m"), new ClassCircularityError(), new ClassCircularityError("m"));
        show(new ClassFormatError(), new ClassFormatError("m"), new IllegalAccessError(), new IllegalAccessError("m"));
        show(new InstantiationError(), new InstantiationError("m"), new InternalError(), new InternalError("m"));
        show(new NoClassDefFoundError(), new NoClassDefFoundError("m"), new NoSuchFieldError(), new NoSuchFieldError("m"));
        show(new NoSuchMethodError(), new NoSuchMethodError("m"), new OutOfMemoryError(), new OutOfMemoryError("m"));
        show(new StackOverflowError(), new StackOverflowError("m"), new UnknownError(), new UnknownError("m"));
        show(new UnsatisfiedLinkError(), new UnsatisfiedLinkError("m"), new VerifyError(), new VerifyError("m"));
        show(new UnsupportedClassVersionError(), new UnsupportedClassVersionError("m"));
        show(new AssertionError(), new AssertionError("m"), new AssertionError((Object) null), new AssertionError(Integer.valueOf(7)));
        show(new AssertionError(true), new AssertionError('c'), new AssertionError(-5), new AssertionError(1L << 40));
        show(new VirtualMachineError() { }.getMessage() == null ? new Error("none") : new Error("some"), new VirtualMachineError("m") { }.getMessage().equals("m") ? new Error("m") : null);
    }

    static void showExceptions() {
        show(new EOFException(), new EOFException("m"), new FileNotFoundException(), new FileNotFoundException("m"));
        show(new UnsupportedEncodingException(), new UnsupportedEncodingException("m"), new InterruptedException(), new InterruptedException("m"));
        show(new ClassNotFoundException(), new ClassNotFoundException("m"), new IllegalAccessException(), new IllegalAccessException("m"));
        show(new InstantiationException(), new InstantiationException("m"), new NoSuchFieldException(), new NoSuchFieldException("m"));
        show(new NoSuchMethodException(), new NoSuchMethodException("m"));
        show(new ReflectiveOperationException(), new ReflectiveOperationException("m"));
        show(new IllegalMonitorStateException(), new IllegalMonitorStateException("m"), new IllegalThreadStateException(), new IllegalThreadStateException("m"));
        show(new SecurityException(), new SecurityException("m"), new NumberFormatException(), new NumberFormatException("m"));
        show(new ConcurrentModificationException(), new ConcurrentModificationException("m"), new EmptyStackException());
        show(new InputMismatchException(), new InputMismatchException("m"), new NoSuchElementException(), new NoSuchElementException("m"));
    }

    public static void main(String[] args) {
        showErrors();
        showExceptions();
        thrown(new NumberFormatException("1"));
        thrown(new IllegalThreadStateException("2"));
        thrown(new InputMismatchException("3"));
        thrown(new EmptyStackException());
        thrown(new ConcurrentModificationException((String) null));
    }
}
