import com.sun.jna.Library;
import com.sun.jna.Memory;
import com.sun.jna.Native;
import com.sun.jna.Pointer;
import com.sun.jna.ptr.LongByReference;
import java.nio.charset.StandardCharsets;
import java.util.ArrayList;
import java.util.List;

/**
 * A driver of libmdb for Java, by JNA: steps as lines in, replies and facts out. The library is found by {@code -Djna.library.path}.
 *
 * <p>One thread at a time: each method is synchronized, so that a step's facts are of that step. Numbers of 64 bits are Java's, to be read as unsigned.
 */
public final class Driver implements AutoCloseable {
    /** What whoever makes a step is told; names by the numbers of mdb.h. */
    public enum Kind { POOLED, ESTABLISHING, WAITING, ENDED, JOB, NO_JOB, CHANGED, COUNT, DONE, REFUSED }

    /** What became true by a step. */
    public enum FactKind { OPENED, POOL, GRANTED, ENDED, RAISED, SDAM, CHECK_NOW, CANCEL }

    /** A fact; members that its kind does not name are 0. */
    public record Fact(FactKind kind, int event, int pool, int id, int party, int why, long number) {}

    /** A reply with the facts of its step. */
    public record Reply(Kind kind, int pool, int id, int why, long number, List<Fact> facts) {}

    /** A step that the library did not do: its status is that of mdb.h. */
    public static final class MdbException extends RuntimeException {
        private static final long serialVersionUID = 1;
        public final int status;

        MdbException(int status, String line) {
            super(switch (status) {
                case NO_MEMORY -> "out of memory";
                case MALFORMED -> "malformed: " + line;
                case CLOSED -> "the driver is closed";
                default -> "status " + status;
            });
            this.status = status;
        }
    }

    private interface Mdb extends Library {
        int mdb_abi();

        int mdb_open_line(Pointer slot, int seat, byte[] line, long length);

        int mdb_line_told(Pointer slot, int seat, byte[] line, long length, Pointer told);

        int mdb_facts(Pointer slot, Pointer facts, long room, LongByReference count);

        int mdb_entry_text(Pointer slot, Pointer out, long room, LongByReference needed);

        void mdb_close(Pointer slot);
    }

    private static final int OK = 0, NO_MEMORY = 1, MALFORMED = 2, NO_ROOM = 3, CLOSED = 4;
    private static final int ABI = 4, SLOT = 16, REPLY = 24, FACT = 56, TOLD_FACTS = 8;
    private static final Mdb LIBRARY = Native.load("mdb", Mdb.class);
    private final Memory slot = new Memory(SLOT), told = new Memory(REPLY + 8 + FACT * TOLD_FACTS);

    /** Opens a driver by an {@code open} line. */
    public Driver(String line) {
        if (LIBRARY.mdb_abi() != ABI) throw new IllegalStateException("the library is of interface " + LIBRARY.mdb_abi() + ", and not " + ABI);
        slot.clear();
        byte[] bytes = line.getBytes(StandardCharsets.UTF_8);
        check(LIBRARY.mdb_open_line(slot, 0, bytes, bytes.length), line);
    }

    /** Does the step of a line. */
    public synchronized Reply step(String line) {
        byte[] bytes = line.getBytes(StandardCharsets.UTF_8);
        check(LIBRARY.mdb_line_told(slot, 0, bytes, bytes.length, told), line);
        Kind kind = Kind.values()[told.getInt(0) - 1];
        return new Reply(kind, told.getInt(4), told.getInt(8), told.getInt(12), told.getLong(16), facts((int) told.getLong(REPLY)));
    }

    private List<Fact> facts(int count) {
        Pointer at = told.share(REPLY + 8);
        if (count > TOLD_FACTS) {
            at = new Memory((long) FACT * count);
            check(LIBRARY.mdb_facts(slot, at, count, new LongByReference()), "");
        }
        List<Fact> made = new ArrayList<>(count);
        for (int i = 0; i < count; i++) made.add(fact(at.share((long) FACT * i)));
        return made;
    }

    private static Fact fact(Pointer at) {
        FactKind kind = FactKind.values()[at.getInt(0) - 1];
        return new Fact(kind, at.getInt(4), at.getInt(8), at.getInt(12), at.getInt(16), at.getInt(20), at.getLong(24));
    }

    /** The text of the last step, as a log has it. */
    public synchronized String entry() {
        LongByReference length = new LongByReference();
        int status = LIBRARY.mdb_entry_text(slot, new Memory(1), 0, length);
        if (status != NO_ROOM) check(status, "");
        Memory text = new Memory(length.getValue());
        check(LIBRARY.mdb_entry_text(slot, text, text.size(), length), "");
        return new String(text.getByteArray(0, (int) text.size()), StandardCharsets.ISO_8859_1);
    }

    /** Frees the driver. A second close does nothing. */
    @Override
    public synchronized void close() {
        LIBRARY.mdb_close(slot);
    }

    private static void check(int status, String line) {
        if (status != OK) throw new MdbException(status, line);
    }
}
