package carrotknife.cedar;

import java.util.LinkedHashMap;
import java.util.Map;
import java.util.StringJoiner;

/** A call that validates policies by a schema, part by part: {@code new Validation(schema).policy("id", text).answer()}. */
public final class Validation {
    /** How strictly types must fit. */
    public enum Mode {
        STRICT("strict"), PERMISSIVE("permissive");

        private final String word;

        Mode(String word) {
            this.word = word;
        }
    }

    private final String schema;
    private final Map<String, String> policies = new LinkedHashMap<>();
    private final Map<String, String> templates = new LinkedHashMap<>();
    private final Map<String, String> settings = new LinkedHashMap<>();

    /** A call by a schema in Cedar's syntax, without a policy. */
    public Validation(String schema) {
        this.schema = schema;
    }

    /** Adds a policy in Cedar's syntax. */
    public Validation policy(String id, String text) {
        policies.put(id, quoted(text));
        return this;
    }

    /** Adds a policy with slots in Cedar's syntax. */
    public Validation template(String id, String text) {
        templates.put(id, quoted(text));
        return this;
    }

    /** Sets the mode, which is strict where it is not set. */
    public Validation mode(Mode mode) {
        settings.put("mode", quoted(mode.word));
        return this;
    }

    /** Refuses policies that need a higher level. */
    public Validation level(int most) {
        settings.put("level", Integer.toString(most));
        return this;
    }

    /** Asks for the verdict on each policy, and for the environments of each error. */
    public Validation details() {
        settings.put("details", "true");
        return this;
    }

    /** The call as a text of JSON. */
    public String call() {
        String set = object(Map.of("staticPolicies", object(policies), "templates", object(templates)));
        return object(Map.of("schema", quoted(schema), "policies", set, "validationSettings", object(settings)));
    }

    /** The answer, a text of JSON: a {@code ValidationAnswer} of Cedar's FFI. */
    public String answer() {
        return Cedar.validate(call());
    }

    private static String object(Map<String, String> members) {
        StringJoiner joined = new StringJoiner(",", "{", "}");
        members.forEach((key, value) -> joined.add(quoted(key) + ":" + value));
        return joined.toString();
    }

    private static String quoted(String text) {
        StringBuilder found = new StringBuilder("\"");
        for (char letter : text.toCharArray()) {
            if (letter == '"' || letter == '\\') found.append('\\').append(letter);
            else if (letter < ' ') found.append(String.format("\\u%04x", (int) letter));
            else found.append(letter);
        }
        return found.append('"').toString();
    }
}
