package ixm;

import java.math.BigInteger;
import java.util.Optional;
import java.util.regex.Matcher;
import java.util.regex.Pattern;

/** Replies of docs/protocol.md, read exactly: a line is of one of these forms as a whole, or of
 * none. */
final class Reply {
    /** The bytes of a line, without its end, at most. */
    static final int LONGEST = 255;

    static final Reply GRANTED = new Reply("granted T");
    static final Reply CONFIRMED = new Reply("confirmed N");
    static final Reply OUTCOME_CONFIRMED = new Reply("outcome confirmed N");
    static final String OUTCOME_OPEN = "outcome open";
    static final String OUTCOME_NEVER = "outcome never";
    static final String OUTCOME_LEFT_OUT = "refused 32 left out";
    static final String ENTRY_LEFT_OUT = "refused 33 left out";
    static final String EXPIRED = "refused 31 expired";
    static final String DISK = "refused 91 disk";
    static final String NOT_PERMITTED = "refused 21 not permitted";
    private static final Reply BUSY = new Reply("refused 20 busy until N");

    private static final BigInteger MOST = BigInteger.TWO.pow(64).subtract(BigInteger.ONE);
    private static final String NUMBER = "0|[1-9][0-9]{0,19}";

    private final Pattern pattern;

    private Reply(String form) {
        pattern = Pattern.compile(form.replace("N", "([0-9]+)").replace("T", "([0-9]+-[0-9]+)"));
    }

    /** The number or the ticket of a line of this form, as it stands there. */
    Optional<String> read(String line) {
        Matcher found = pattern.matcher(line);
        if (!found.matches()) {
            return Optional.empty();
        }
        for (String number : found.group(1).split("-")) {
            if (!isNumber(number)) {
                return Optional.empty();
            }
        }
        return Optional.of(found.group(1));
    }

    /** Whether an ask that is refused so may be asked again: another action is reserved, or the
     * rules don't permit it. */
    static boolean isForLater(String line) {
        return line.equals(NOT_PERMITTED) || BUSY.read(line).isPresent();
    }

    static boolean isNumber(String word) {
        return word.matches(NUMBER) && new BigInteger(word).compareTo(MOST) <= 0;
    }

    static boolean isTicket(String word) {
        String[] numbers = word.split("-", -1);
        return numbers.length == 2 && isNumber(numbers[0]) && isNumber(numbers[1]);
    }
}
