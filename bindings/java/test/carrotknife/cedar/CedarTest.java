package carrotknife.cedar;

import java.nio.file.Files;
import java.nio.file.Path;

/** The calls from Java: answers, typed calls, odd texts, schemas that are read once, memory, four threads, and a deep condition on a thread of 1 MiB. */
public final class CedarTest {
    static final String SCHEMA = "{\"schema\":\"entity U{a?:Long};action v appliesTo{principal:U,resource:U};\",";
    static final String CALL = SCHEMA + "\"policies\":{\"staticPolicies\":{\"x\":\"permit(principal,action,resource) when {principal.a == 1};\"}}}";
    static final int CALLS = 10000;

    static void check(boolean holds) {
        if (!holds) throw new AssertionError();
    }

    static long resident() throws Exception {
        return Long.parseLong(Files.readString(Path.of("/proc/self/statm")).split(" ")[1]) * 4096;
    }

    static void run(int count, String wanted) {
        for (int i = 0; i < count; i++) check(Cedar.validate(CALL).equals(wanted));
    }

    static void answers(String answer) {
        check(answer.contains("\"policyId\":\"x\"") && answer.contains("unguarded-attribute"));
        check(Cedar.checkData(SCHEMA + "\"entities\":[]}").contains("\"conforms\":true"));
        String policy = "\"policy\":\"permit(principal,action,resource) when {principal == resource};\"}";
        check(Cedar.typedConditions(SCHEMA + policy).contains("{\"==\":{\"left\":{\"Var\":\"principal\"},\"right\":{\"Var\":\"resource\"}}}"));
    }

    static void typed(String wanted) {
        Validation call = new Validation("entity U{a?:Long};action v appliesTo{principal:U,resource:U};").policy("x", "permit(principal,action,resource) when {principal.a == 1};");
        check(call.answer().equals(wanted));
        String answer = call.template("\"é\\", "permit(principal == ?principal,action,resource) when {resource.a == 1};").mode(Validation.Mode.PERMISSIVE).level(0).details().answer();
        check(answer.contains("{\"policyId\":\"\\\"é\\\\\",\"accepted\":false"));
    }

    static void oddTexts() {
        for (String text : new String[] {"", "\0", "[".repeat((1 << 26) + 1)}) check(Cedar.validate(text).startsWith("{\"type\":\"failure\""));
        try {
            Cedar.answer(0, new byte[] {(byte) 0xff});
            check(false);
        } catch (IllegalArgumentException wanted) {
            check(wanted.getMessage().contains("UTF-8"));
        }
    }

    static final String ONLY = SCHEMA.substring(0, SCHEMA.length() - 1) + "}";
    static final String BY = CALL.replace(SCHEMA, "{");

    static void schemas(String wanted) throws Exception {
        Schema closed;
        try (Schema schema = Schema.open(ONLY)) {
            closed = schema;
            for (int i = 0; i < 3; i++) check(schema.validate(BY).equals(wanted));
            check(schema.checkData("{\"entities\":[]}").contains("\"conforms\":true"));
            String policy = "\"policy\":\"permit(principal,action,resource) when {principal == resource};\"}";
            check(schema.typedConditions("{" + policy).equals(Cedar.typedConditions(SCHEMA + policy)));
            String many = "\"policies\":\"" + "permit(principal,action,resource) when {principal.a == 1};".repeat(200) + "\"}";
            String whole = Cedar.validate(SCHEMA + many);
            check(whole.length() > 4 * many.length() + 4096 && schema.validate("{" + many).equals(whole));
            inThreads(() -> { for (int i = 0; i < 1000; i++) check(schema.validate(BY).equals(wanted)); }, 4);
        }
        closed.close();
        try {
            closed.validate(BY);
            check(false);
        } catch (IllegalStateException error) {
            check(error.getMessage().contains("closed"));
        }
        for (String text : new String[] {"", "{}", "{\"schema\":\"entity\"}"}) {
            try {
                Schema.open(text);
                check(false);
            } catch (Schema.Refused error) {
                check(error.failure().startsWith("{\"type\":\"failure\""));
            }
        }
    }

    static void inThreads(Runnable body, int count) throws Exception {
        Throwable[] thrown = new Throwable[1];
        Thread[] threads = new Thread[count];
        for (int i = 0; i < count; i++) {
            threads[i] = new Thread(null, body, "caller", 1 << 20);
            threads[i].setUncaughtExceptionHandler((thread, error) -> thrown[0] = error);
            threads[i].start();
        }
        for (Thread it : threads) it.join();
        check(thrown[0] == null);
    }

    public static void main(String[] none) throws Exception {
        String wanted = Cedar.validate(CALL);
        answers(wanted);
        typed(wanted);
        oddTexts();
        schemas(wanted);
        run(CALLS / 2, wanted);
        System.gc();
        long before = resident();
        run(CALLS, wanted);
        for (int i = 0; i < CALLS / 10; i++) Schema.open(ONLY).close();
        check(resident() - before < 1 << 26);
        inThreads(() -> run(CALLS / 4, wanted), 4);
        String deep = SCHEMA + "\"policies\":\"permit(principal,action,resource) when {" + "(".repeat(396) + "true" + " || true)".repeat(396) + "};\"}";
        inThreads(() -> check(Cedar.validate(deep).startsWith("{\"type\":\"failure\"")), 1);
    }
}
