package ixm;

import java.io.IOException;
import java.util.Optional;

/** Where an activity keeps how far it is: one line of text. Another piece of work has another
 * store. */
public interface Store {
    /** The record, or nothing if there is none yet. */
    Optional<String> load() throws IOException;

    /** Puts a record in the place of the old one, and says true once it is there for good, after
     * any crash. Says false, and changes nothing, if the record isn't the old one: another run has
     * this activity in work too. */
    boolean swap(Optional<String> old, String record) throws IOException;
}
