package ixm;

import java.math.BigInteger;
import java.util.Optional;

/** What a store says of an activity. */
sealed interface Kept {
    /** There is no ticket yet. */
    record Nothing() implements Kept {}

    /** It isn't known what became of the ticket. */
    record Open(String ticket, String action) implements Kept {}

    /** The action isn't in the history by the ticket, and never will be. */
    record Never(String ticket, String action) implements Kept {}

    /** The ticket's action is the one of this number of the history. */
    record Done(String ticket, BigInteger number, String action) implements Kept {}

    /** The line that a store holds. */
    static String text(Kept kept) {
        if (kept instanceof Open open) {
            return "open " + open.ticket() + " " + open.action();
        }
        if (kept instanceof Never never) {
            return "never " + never.ticket() + " " + never.action();
        }
        if (kept instanceof Done done) {
            return "done " + done.ticket() + " " + done.number() + " " + done.action();
        }
        throw new IllegalArgumentException("nothing has no text");
    }

    /** What a line says of this action; empty if it is none of these, or of another action. */
    static Optional<Kept> read(Optional<String> line, String action) {
        if (line.isEmpty()) {
            return Optional.of(new Nothing());
        }
        String[] words = line.get().split(" ", -1);
        boolean isOfIt = words.length > 2
                && Reply.isTicket(words[1])
                && words[words.length - 1].equals(action);
        if (isOfIt && words.length == 3 && words[0].equals("open")) {
            return Optional.of(new Open(words[1], action));
        }
        if (isOfIt && words.length == 3 && words[0].equals("never")) {
            return Optional.of(new Never(words[1], action));
        }
        if (isOfIt && words.length == 4 && words[0].equals("done") && Reply.isNumber(words[2])) {
            return Optional.of(new Done(words[1], new BigInteger(words[2]), action));
        }
        return Optional.empty();
    }
}
