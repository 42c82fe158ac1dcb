// What lib/pq does over styles_server: styles_lib_pq HOST PORT. A line tells each thing that was tried, and what came.
package main

import (
	"context"
	"database/sql"
	"fmt"
	"os"
	"strings"

	"github.com/lib/pq"
)

type action func(*sql.DB) (string, error)

// tell prints what an action over a new database gives, or its error: the code and the text.
func tell(what, more string, of action) {
	address := fmt.Sprintf("host=%s port=%s user=demo dbname=demo sslmode=disable %s", os.Args[1], os.Args[2], more)
	db, _ := sql.Open("postgres", address)
	defer db.Close()
	came, err := of(db)
	if told, is := err.(*pq.Error); is {
		came = fmt.Sprint(told.Code, " ", told.Message)
	} else if err != nil {
		came = err.Error()
	}
	fmt.Printf("%s: %s\n", what, came)
}

// cells gives the four styles of a row.
func cells(row *sql.Row) (string, error) {
	var styles [4]string
	err := row.Scan(&styles[0], &styles[1], &styles[2], &styles[3])
	return strings.Join(styles[:], "|"), err
}

func query(text string, given ...interface{}) action {
	return func(db *sql.DB) (string, error) { return cells(db.QueryRow(text, given...)) }
}

// prepared gives what a statement under a name gives for each of three parameters.
func prepared(db *sql.DB) (string, error) {
	statement, err := db.Prepare("$1")
	rows := []string{}
	for _, text := range []string{"1 day", "2 days", "3 days"} {
		if err != nil {
			return "", err
		}
		var row string
		row, err = cells(statement.QueryRow(text))
		rows = append(rows, row)
	}
	return strings.Join(rows, ", "), err
}

// behindAnError asks on the one connection on which a query failed.
func behindAnError(db *sql.DB) (string, error) {
	db.SetMaxOpenConns(1)
	if came, err := query("$1", "1 fortnight")(db); err == nil {
		return came, err
	}
	return query("$1", "36:00")(db)
}

func byTurns(db *sql.DB) (string, error) {
	ctx := context.Background()
	one, _ := db.Conn(ctx)
	other, _ := db.Conn(ctx)
	first, _ := cells(one.QueryRowContext(ctx, "1 day"))
	second, _ := cells(other.QueryRowContext(ctx, "2 days"))
	third, err := cells(one.QueryRowContext(ctx, "3 days"))
	return first + ", " + second + ", " + third, err
}

func main() {
	bytes := []byte{0, 0, 0, 0, 214, 147, 164, 0, 0, 0, 0, 3, 0, 0, 0, 14} // an hour, three days and fourteen months
	tell("query", "", query("1 mon -2 days"))
	tell("a text as the parameter", "", query("$1", "36:00"))
	tell("the same with binary_parameters=yes", "binary_parameters=yes", query("$1", "36:00"))
	tell("bytes as the parameter, with binary_parameters=yes", "binary_parameters=yes", query("$1", bytes))
	tell("fewer than sixteen bytes", "binary_parameters=yes", query("$1", bytes[1:]))
	tell("null", "", query("$1", nil))
	tell("prepared, thrice", "", prepared)
	tell("no interval", "", query("1 fortnight"))
	tell("a parameter that is no interval", "", query("$1", "1 fortnight"))
	tell("a query behind an error", "", behindAnError)
	tell("two connections by turns", "", byTurns)
	tell("Begin", "", func(db *sql.DB) (string, error) { _, err := db.Begin(); return "begun", err })
}
