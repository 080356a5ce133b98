package carrotknife.cedar;

import java.nio.charset.StandardCharsets;

/**
 * A schema that is read once, for many calls, which name none: {@code try (Schema schema = Schema.open(call)) { schema.validate(text); }}.
 * Threads that share one wait for each other. A call by a closed schema is an IllegalStateException.
 */
public final class Schema implements AutoCloseable {
    static {
        // (it loads the library, and looks at its number)
        Cedar.load();
    }

    /** A schema that cannot be read. */
    public static final class Refused extends Exception {
        private static final long serialVersionUID = 1;

        Refused(String failure) {
            super(failure);
        }

        /** The answer, a {@code failure}, which says why. */
        public String failure() {
            return getMessage();
        }
    }

    /** The address of the handle; 0 once it is closed. */
    private long handle;

    private Schema(long handle) {
        this.handle = handle;
    }

    private static native long closed();

    private static native byte[] open(long handle, byte[] call);

    private static native byte[] answer(long handle, int number, byte[] call);

    private static native void close(long handle);

    private static byte[] bytes(String text) {
        return text.getBytes(StandardCharsets.UTF_8);
    }

    /** Opens the schema of a call, an object of {@code schema} alone. */
    public static Schema open(String call) throws Refused {
        Schema schema = new Schema(closed());
        if (schema.handle == 0) throw new OutOfMemoryError("memory was refused");
        byte[] failure;
        try {
            failure = open(schema.handle, bytes(call));
        } catch (OutOfMemoryError error) {
            schema.close();
            throw error;
        }
        if (failure == null) return schema;
        schema.close();
        throw new Refused(new String(failure, StandardCharsets.UTF_8));
    }

    /** Frees the schema. A closed one stays closed. */
    @Override
    public synchronized void close() {
        if (handle != 0) close(handle);
        handle = 0;
    }

    private synchronized String answered(int number, String call) {
        if (handle == 0) throw new IllegalStateException("the schema is closed");
        return new String(answer(handle, number, bytes(call)), StandardCharsets.UTF_8);
    }

    /** Validates policies: {@code policies} and perhaps {@code validationSettings}. */
    public String validate(String call) {
        return answered(0, call);
    }

    /** Checks data: perhaps {@code entities} and {@code request}. */
    public String checkData(String call) {
        return answered(1, call);
    }

    /** The condition of a policy in each of its environments: {@code policy} and perhaps {@code validationSettings}. */
    public String typedConditions(String call) {
        return answered(2, call);
    }
}
