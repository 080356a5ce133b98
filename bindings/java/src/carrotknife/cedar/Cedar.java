package carrotknife.cedar;

import java.io.IOException;
import java.io.InputStream;
import java.nio.charset.StandardCharsets;
import java.nio.file.Files;
import java.nio.file.Path;
import java.nio.file.StandardCopyOption;

/** The validator of Cedar policies, by the C library libcedar. Each method takes a call, a text of JSON, and answers one. */
public final class Cedar {
    /** The number of calls that this class knows. */
    private static final int ABI = 2;

    static {
        loadLibrary();
        if (abi() != ABI) throw new ExceptionInInitializerError("libcedar has the number " + abi() + " of calls, where " + ABI + " is wanted");
    }

    private Cedar() { }

    /** Loads the library that lies in the jar beside this class, and else that of {@code java.library.path}. */
    private static void loadLibrary() {
        try (InputStream inJar = Cedar.class.getResourceAsStream("libcedar_jni.so")) {
            if (inJar == null) {
                System.loadLibrary("cedar_jni");
                return;
            }
            Path file = Files.createTempFile("libcedar_jni", ".so");
            try {
                Files.copy(inJar, file, StandardCopyOption.REPLACE_EXISTING);
                System.load(file.toString());
            } finally {
                Files.delete(file);
            }
        } catch (IOException error) {
            throw new ExceptionInInitializerError(error);
        }
    }

    private static native int abi();

    /** Does nothing but load this class, and so the library. */
    static void load() { }

    /** Makes the call of this number. Memory that is refused is an OutOfMemoryError, and bytes that are no UTF-8 are an IllegalArgumentException. */
    static native byte[] answer(int number, byte[] call);

    private static String answered(int number, String call) {
        return new String(answer(number, call.getBytes(StandardCharsets.UTF_8)), StandardCharsets.UTF_8);
    }

    /** Validates policies: {@code schema}, {@code policies} and perhaps {@code validationSettings}. */
    public static String validate(String call) {
        return answered(0, call);
    }

    /** Checks data: {@code schema} and perhaps {@code entities} and {@code request}. */
    public static String checkData(String call) {
        return answered(1, call);
    }

    /** The condition of a policy in each of its environments: {@code schema}, {@code policy} and perhaps {@code validationSettings}. */
    public static String typedConditions(String call) {
        return answered(2, call);
    }
}
