import java.util.ArrayList;
import java.util.LinkedHashMap;
import java.util.List;
import java.util.Map;

/** As much of JSON as this example needs: objects, arrays, strings without escapes but of quotes,
 * whole numbers. */
final class Json {
    private final String text;
    private int place;

    private Json(String text) {
        this.text = text;
    }

    /** The maps, lists, strings and longs of a text. Throws IllegalArgumentException for any other
     * text. */
    static Object read(String text) {
        Json json = new Json(text);
        Object value = json.value();
        json.want(json.next() == 0);
        return value;
    }

    static String write(Object value) {
        if (value instanceof Map<?, ?> map) {
            List<String> members = new ArrayList<>();
            map.forEach((key, it) -> members.add(write(key) + ":" + write(it)));
            return "{" + String.join(",", members) + "}";
        }
        if (value instanceof List<?> list) {
            return "[" + String.join(",", list.stream().map(Json::write).toList()) + "]";
        }
        if (value instanceof String word) {
            return '"' + word.replace("\"", "\\\"") + '"';
        }
        return String.valueOf(value);
    }

    /** The member of an object. */
    static Object at(Object object, String key) {
        if (object instanceof Map<?, ?> map && map.get(key) != null) {
            return map.get(key);
        }
        throw new IllegalArgumentException("no " + key + " in " + object);
    }

    private Object value() {
        return switch (next()) {
            case '{' -> object();
            case '[' -> list();
            case '"' -> string();
            default -> number();
        };
    }

    private Map<String, Object> object() {
        Map<String, Object> members = new LinkedHashMap<>();
        for (take('{'); next() != '}'; skip(',', '}')) {
            String key = string();
            take(':');
            members.put(key, value());
        }
        take('}');
        return members;
    }

    private List<Object> list() {
        List<Object> items = new ArrayList<>();
        for (take('['); next() != ']'; skip(',', ']')) {
            items.add(value());
        }
        take(']');
        return items;
    }

    private String string() {
        StringBuilder read = new StringBuilder();
        take('"');
        for (; at() != '"'; place++) {
            want(at() != 0);
            place += at() == '\\' ? 1 : 0;
            read.append(at());
        }
        place++;
        return read.toString();
    }

    private Long number() {
        int from = place;
        while (Character.isDigit(at())) {
            place++;
        }
        want(place > from);
        return Long.valueOf(text.substring(from, place));
    }

    private char at() {
        return place < text.length() ? text.charAt(place) : 0;
    }

    private char next() {
        while (Character.isWhitespace(at())) {
            place++;
        }
        return at();
    }

    private void take(char wanted) {
        want(next() == wanted);
        place++;
    }

    /** Passes over a comma, unless the end comes. */
    private void skip(char comma, char end) {
        if (next() != end) {
            take(comma);
        }
    }

    private void want(boolean holds) {
        if (!holds) {
            throw new IllegalArgumentException("at " + place + " of " + text);
        }
    }
}
