package ixm;

import java.io.IOException;
import java.math.BigInteger;
import java.util.Optional;

/** How one action comes into the history exactly once, whoever is killed meanwhile. docs/engines.md
 * has its states, in the words used here. */
final class Activity {
    /** A connection that the manager reads. */
    interface Talk {
        String ask(String line) throws IOException;
    }

    private final String action;
    private final int lease;
    private final Store store;
    private Optional<String> text = Optional.empty(); // what the store held when it was last read
    private Kept kept = new Kept.Nothing(); // what that says

    Activity(String action, int lease, Store store) {
        this.action = action;
        this.lease = lease;
        this.store = store;
    }

    /** The action's number, if it is done. */
    Optional<BigInteger> number() {
        return kept instanceof Kept.Done done ? Optional.of(done.number()) : Optional.empty();
    }

    /** The ticket of which it isn't known what became of it. */
    private Optional<String> unsettled() {
        return kept instanceof Kept.Open open ? Optional.of(open.ticket()) : Optional.empty();
    }

    NotDone notDone(NotDone.Kind kind, String reason, Throwable cause) {
        return new NotDone(kind, action, reason, unsettled(), cause);
    }

    private NotDone forPeople(String reply) {
        return notDone(NotDone.Kind.FOR_PEOPLE, reply, null);
    }

    /** Settles the ticket that is kept, if there is one, and asks, if nothing is unsettled then. */
    void goOn(Talk talk) throws IOException, NotDone {
        if (kept instanceof Kept.Open open) {
            settle(talk, open.ticket());
        }
        if (unsettled().isEmpty() && number().isEmpty()) {
            ask(talk);
        }
    }

    /** Asks; if it is granted, keeps the ticket, and only then confirms it. */
    private void ask(Talk talk) throws IOException, NotDone {
        String reply = talk.ask("ask " + action + " " + lease);
        Optional<String> ticket = Reply.GRANTED.read(reply);
        if (ticket.isEmpty()) {
            if (!Reply.isForLater(reply)) {
                throw forPeople(reply);
            }
        } else if (keepGranted(talk, ticket.get())) {
            confirm(talk, ticket.get(), true);
        }
    }

    /** Whether the ticket is kept. If it isn't, it is given up: another run has this activity, or
     * the store failed. */
    private boolean keepGranted(Talk talk, String ticket) throws NotDone {
        boolean isKept = false;
        try {
            isKept = keep(new Kept.Open(ticket, action));
        } finally {
            if (!isKept) {
                cancel(talk, ticket);
            }
        }
        return isKept;
    }

    /** Gives up a ticket that nobody will confirm. If that is lost, others wait until its lease is
     * over. */
    private static void cancel(Talk talk, String ticket) {
        try {
            talk.ask("cancel " + ticket);
        } catch (IOException lost) {
            return;
        }
    }

    /** Confirms a ticket that is kept. It is one's own if it was granted on this very connection,
     * for this action. */
    private void confirm(Talk talk, String ticket, boolean isOwn) throws IOException, NotDone {
        String reply = talk.ask("confirm " + ticket);
        Optional<String> number = Reply.CONFIRMED.read(reply);
        if (number.isPresent()) {
            believe(talk, ticket, number.get(), isOwn);
        } else if (reply.equals(Reply.EXPIRED)) {
            keep(new Kept.Never(ticket, action));
        } else if (reply.equals(Reply.DISK)) {
            throw forPeople(reply);
        }
    }

    /** Asks what became of the ticket that is kept, and keeps the answer. */
    private void settle(Talk talk, String ticket) throws IOException, NotDone {
        String reply = talk.ask("outcome " + ticket);
        Optional<String> number = Reply.OUTCOME_CONFIRMED.read(reply);
        if (number.isPresent()) {
            believe(talk, ticket, number.get(), false);
        } else if (reply.equals(Reply.OUTCOME_OPEN)) {
            confirm(talk, ticket, false);
        } else if (reply.equals(Reply.OUTCOME_NEVER)) {
            keep(new Kept.Never(ticket, action));
        } else if (reply.equals(Reply.OUTCOME_LEFT_OUT)) {
            throw notDone(NotDone.Kind.LEFT_OUT, reply, null);
        } else {
            throw forPeople(reply);
        }
    }

    /** Keeps that the action is done, after a look into the log: a journal that was put back from a
     * backup may have granted the same ticket again, for another action. */
    private void believe(Talk talk, String ticket, String number, boolean isOwn)
            throws IOException, NotDone {
        if (!isOwn) {
            String entry = talk.ask("log " + number);
            if (entry.equals(Reply.ENTRY_LEFT_OUT)) {
                throw notDone(NotDone.Kind.LEFT_OUT, "the log has " + entry, null);
            }
            if (!entry.equals("entry " + number + " " + action)) {
                throw forPeople("the log has " + entry);
            }
        }
        Kept done = new Kept.Done(ticket, new BigInteger(number), action);
        if (!keep(done) && !kept.equals(done)) {
            String reason = "confirmed " + number + ", but the store says " + text;
            throw new NotDone(NotDone.Kind.FOR_PEOPLE, action, reason, Optional.of(ticket), null);
        }
    }

    /** Reads what the store holds. */
    void load() throws NotDone {
        Optional<String> held;
        try {
            held = store.load();
        } catch (IOException error) {
            throw notDone(NotDone.Kind.NOT_KEPT, "the store can't be read: " + error, error);
        }
        Kept read = Kept.read(held, action).orElseThrow(() -> forPeople("the store holds " + held));
        text = held;
        kept = read;
    }

    /** Whether this is kept, in the place of what was there. If another run kept something, that is
     * read. */
    private boolean keep(Kept next) throws NotDone {
        String line = Kept.text(next);
        try {
            if (store.swap(text, line)) {
                text = Optional.of(line);
                kept = next;
                return true;
            }
        } catch (IOException error) {
            throw notDone(NotDone.Kind.NOT_KEPT, line + " can't be kept: " + error, error);
        }
        load();
        return false;
    }
}
