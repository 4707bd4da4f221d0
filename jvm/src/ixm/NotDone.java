package ixm;

import java.util.Optional;

/** An action wasn't brought about, or nobody knows yet. */
public final class NotDone extends Exception {
    private static final long serialVersionUID = 1;

    /** Why. */
    public enum Kind {
        /** The answer was one that no engine can mend, or that its programmer has to. */
        FOR_PEOPLE,
        /** The journal was renewed, and what became of the ticket is left out of it: the action
         * happened or it didn't, and no later run tells. The old journal's log does. */
        LEFT_OUT,
        /** The time that the caller set has passed. */
        TOO_LATE,
        /** The store couldn't be read or written; its error is the cause. */
        NOT_KEPT
    }

    private final Kind kind;
    private final String ticket;

    NotDone(Kind kind, String action, String reason, Optional<String> ticket, Throwable cause) {
        super(action + ": " + reason + tail(ticket), cause);
        this.kind = kind;
        this.ticket = ticket.orElse(null);
    }

    private static String tail(Optional<String> ticket) {
        return ticket.map(it -> ", and it may have happened by " + it).orElse("");
    }

    public Kind kind() {
        return kind;
    }

    /** The ticket by which the action may be in the history all the same. Empty if it isn't there
     * by this call, and never will be. */
    public Optional<String> ticket() {
        return Optional.ofNullable(ticket);
    }
}
