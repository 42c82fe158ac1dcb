// What lib/pq does over the server: lib_pq HOST PORT. A line tells each thing that was tried, and what came.
package main

import (
	"context"
	"database/sql"
	"fmt"
	"os"
	"strings"
	"time"

	"github.com/lib/pq"
)

type action func(*sql.DB) (string, error)

// tell prints what an action over a new database gives, or its error: the code and the text.
func tell(what, more string, of action) {
	address := fmt.Sprintf("host=%s port=%s user=demo dbname=rosters %s", os.Args[1], os.Args[2], more)
	db, _ := sql.Open("postgres", address)
	defer db.Close()
	came, err := of(db)
	if told, is := err.(*pq.Error); is {
		came = fmt.Sprint(told.Code, " ", told.Message)
	} else if err != nil {
		came = err.Error()
	}
	fmt.Printf("%s: %s\n", what, came)
}

// first gives the first column of all rows.
func first(rows *sql.Rows, err error) (string, error) {
	texts := []string{}
	for err == nil && rows.Next() {
		columns, _ := rows.Columns()
		cells := make([]sql.RawBytes, len(columns))
		places := make([]interface{}, len(columns))
		for i := range cells {
			places[i] = &cells[i]
		}
		err = rows.Scan(places...)
		texts = append(texts, string(cells[0]))
	}
	if err == nil {
		err = rows.Err()
	}
	return strings.Join(texts, ", "), err
}

func query(text string) action {
	return func(db *sql.DB) (string, error) { return first(db.Query(text)) }
}

func prepared(db *sql.DB) (string, error) {
	statement, err := db.Prepare("contracts")
	if err != nil {
		return "", err
	}
	return first(statement.Query())
}

func canceled(db *sql.DB) (string, error) {
	limited, cancel := context.WithTimeout(context.Background(), time.Second)
	defer cancel()
	return first(db.QueryContext(limited, "slow"))
}

func main() {
	tell("without sslmode=disable", "", query("shifts"))
	tell("query", "sslmode=disable", query("shifts"))
	tell("unknown relation", "sslmode=disable", query("nosuch"))
	tell("prepared", "sslmode=disable", prepared)
	tell("cancel by context", "sslmode=disable", canceled)
	tell("Begin", "sslmode=disable", func(db *sql.DB) (string, error) { _, err := db.Begin(); return "begun", err })
	for _, style := range []string{"postgres", "postgres_verbose", "iso_8601", "sql_standard"} {
		tell("intervalstyle="+style, "sslmode=disable intervalstyle="+style, query("corrections"))
	}
}
