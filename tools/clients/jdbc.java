// What JDBC does over the server: java -cp postgresql.jar jdbc.java HOST PORT. A line tells each thing that was tried,
// and what came.
import java.io.StringWriter;
import java.sql.*;
import java.util.ArrayList;
import java.util.List;
import java.util.Timer;
import java.util.TimerTask;
import org.postgresql.PGConnection;
import org.postgresql.util.PGInterval;

class jdbc {
    interface Action { Object of(Connection connection) throws Exception; }

    static String plain, address;

    /** Prints what an action over a new connection gives, or its error: the code and the beginning of the text. */
    static void tell(String what, String address, Action action) throws Exception {
        Object came;
        try (Connection connection = DriverManager.getConnection(address, "demo", "demo")) {
            came = action.of(connection);
        } catch (SQLException why) {
            came = (why.getSQLState() + " " + why.getMessage()).replaceAll("\\s+", " ").replaceAll("(?<=.{90}).*", "");
        }
        System.out.println(what + ": " + came);
    }

    static void tell(String what, Action action) throws Exception { tell(what, address, action); }

    /** The first column of all rows. */
    static List<String> first(ResultSet rows) throws SQLException {
        List<String> texts = new ArrayList<>();
        while (rows.next()) texts.add(rows.getString(1));
        return texts;
    }

    static List<String> query(Connection connection, String text) throws SQLException {
        return first(connection.createStatement().executeQuery(text));
    }

    /** What comes the sixth time, when the driver has the statement under a name. */
    static List<String> sixTimes(PreparedStatement statement) throws SQLException {
        for (int i = 0; i < 5; i++) first(statement.executeQuery());
        return first(statement.executeQuery());
    }

    /** Asks by a statement that takes this fetch size and this many rows at most, in a transaction. */
    static Object paged(Connection connection, int size, int most) throws SQLException {
        connection.setAutoCommit(false);
        PreparedStatement statement = connection.prepareStatement("shifts");
        statement.setFetchSize(size);
        statement.setMaxRows(most);
        List<String> texts = first(statement.executeQuery());
        connection.commit();
        return texts;
    }

    /** Asks for `slow`, which is canceled from beside or by the timeout; then the connection is used further. */
    static Object canceled(Connection connection, boolean byTimeout) throws SQLException {
        Statement statement = connection.createStatement();
        Timer timer = new Timer(true);
        if (byTimeout) statement.setQueryTimeout(1);
        else timer.schedule(new TimerTask() { public void run() { try { statement.cancel(); } catch (SQLException why) { } } }, 1000);
        try {
            return first(statement.executeQuery("slow"));
        } catch (SQLException why) {
            return why.getSQLState() + " " + why.getMessage() + ", and then " + query(connection, "corrections");
        }
    }

    static Object copied(Connection connection) throws Exception {
        StringWriter target = new StringWriter();
        long rows = connection.unwrap(PGConnection.class).getCopyAPI().copyOut("COPY leave TO STDOUT", target);
        return rows + " rows, " + target.toString().replaceAll("\\s+", " ").trim();
    }

    static ResultSet firstRow(Connection connection) throws SQLException {
        ResultSet rows = connection.createStatement().executeQuery("corrections");
        rows.next();
        return rows;
    }

    public static void main(String[] words) throws Exception {
        plain = "jdbc:postgresql://" + words[0] + ":" + words[1] + "/rosters";
        address = plain + "?assumeMinServerVersion=16";
        tell("without assumeMinServerVersion", plain, c -> query(c, "shifts"));
        tell("statement", c -> query(c, "shifts"));
        tell("prepared, six times", c -> sixTimes(c.prepareStatement("contracts")));
        tell("unknown relation", c -> query(c, "nosuch"));
        tell("setFetchSize(3) in a transaction", c -> paged(c, 3, 0));
        tell("setMaxRows(3)", c -> paged(c, 0, 3));
        tell("cancel", c -> canceled(c, false));
        tell("setQueryTimeout", c -> canceled(c, true));
        tell("CopyManager", c -> copied(c));
        tell("PGInterval of getString", c -> new PGInterval(firstRow(c).getString(1)));
        tell("getObject", c -> firstRow(c).getObject(1));
        tell("a type's name", c -> firstRow(c).getMetaData().getColumnTypeName(1));
        tell("rollback", c -> { c.setAutoCommit(false); query(c, "unstaffed"); c.rollback(); return "done"; });
        tell("IntervalStyle in options", address + "&options=-c%20IntervalStyle=iso_8601", c -> query(c, "corrections"));
    }
}
