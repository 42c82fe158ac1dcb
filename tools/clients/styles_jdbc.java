// What JDBC does over styles_server: java -cp postgresql.jar styles_jdbc.java HOST PORT. A line tells each thing that was
// tried, and what came.
import java.sql.*;
import org.postgresql.util.PGInterval;

class styles_jdbc {
    interface Action { String of(Connection connection) throws Exception; }

    static String address;

    static Connection connected(String more) throws SQLException { return DriverManager.getConnection(address + more, "demo", "demo"); }

    /** Prints what an action over a new connection gives, or its error: the code and the text. */
    static void tell(String what, String more, Action action) throws Exception {
        String came;
        try (Connection connection = connected(more)) {
            came = action.of(connection);
        } catch (SQLException why) {
            came = (why.getSQLState() + " " + why.getMessage()).replaceAll("\\s+", " ");
        }
        System.out.println(what + ": " + came);
    }

    static void tell(String what, Action action) throws Exception { tell(what, "", action); }

    /** The row of four styles. */
    static String row(ResultSet rows) throws SQLException {
        rows.next();
        return String.join("|", rows.getString(1), rows.getString("postgres_verbose"), rows.getString(3), rows.getString(4));
    }

    static String query(Connection connection, String text) throws SQLException {
        return row(connection.createStatement().executeQuery(text));
    }

    /** What comes for a value, given so many times; from the fifth time on the driver has the statement under a name. */
    static String given(Connection connection, Object value, int times) throws SQLException {
        PreparedStatement statement = connection.prepareStatement("?");
        statement.setObject(1, value, value == null ? Types.VARCHAR : Types.OTHER);
        for (int i = 1; i < times; i++) statement.executeQuery();
        return row(statement.executeQuery());
    }

    static String behindAnError(Connection connection) throws SQLException {
        try {
            return query(connection, "1 fortnight");
        } catch (SQLException why) {
            return query(connection, "1 day");
        }
    }

    static String byTurns(Connection connection) throws SQLException {
        try (Connection other = connected("")) {
            return query(connection, "1 day") + ", " + query(other, "2 days") + ", " + query(connection, "3 days");
        }
    }

    public static void main(String[] words) throws Exception {
        address = "jdbc:postgresql://" + words[0] + ":" + words[1] + "/demo?assumeMinServerVersion=16";
        PGInterval interval = new PGInterval(0, 0, 3, 1, 0, 0);
        tell("statement", c -> query(c, "1 mon -2 days"));
        tell("simple query", "&preferQueryMode=simple", c -> query(c, "1 mon -2 days"));
        tell("prepared, six times", c -> given(c, "36:00", 6));
        tell("setString", c -> {
            PreparedStatement statement = c.prepareStatement("?");
            statement.setString(1, "36:00");
            return row(statement.executeQuery());
        });
        tell("a PGInterval", c -> given(c, interval, 1));
        tell("its text", c -> given(c, interval.getValue(), 1));
        tell("its text behind @", c -> given(c, "@ " + interval.getValue(), 1));
        tell("null", c -> given(c, null, 1));
        tell("a parameter in a simple query", "&preferQueryMode=simple", c -> given(c, "36:00", 1));
        tell("no interval", c -> query(c, "1 fortnight"));
        tell("no interval, simple query", "&preferQueryMode=simple", c -> query(c, "1 fortnight"));
        tell("a parameter that is no interval", c -> given(c, "1 fortnight", 1));
        tell("a query behind an error", c -> behindAnError(c));
        tell("two connections by turns", c -> byTurns(c));
        tell("setAutoCommit(false)", c -> { c.setAutoCommit(false); return query(c, "1 day"); });
    }
}
