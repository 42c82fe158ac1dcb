// What pgx does over styles_server: styles_pgx HOST PORT. A line tells each thing that was tried, and what came.
package main

import (
	"context"
	"fmt"
	"os"
	"strings"
	"time"

	"github.com/jackc/pgx/v4"
)

type action func(*pgx.Conn) (string, error)

var ctx = context.Background()

func connected() (*pgx.Conn, error) {
	return pgx.Connect(ctx, fmt.Sprintf("host=%s port=%s user=demo dbname=demo", os.Args[1], os.Args[2]))
}

// tell prints what an action over a new connection gives, or its error.
func tell(what string, of action) {
	c, err := connected()
	came := ""
	if err == nil {
		defer c.Close(ctx)
		came, err = of(c)
	}
	if err != nil {
		came = err.Error()
	}
	fmt.Printf("%s: %s\n", what, came)
}

// cells gives the four styles of a row.
func cells(row pgx.Row) (string, error) {
	var styles [4]string
	err := row.Scan(&styles[0], &styles[1], &styles[2], &styles[3])
	return strings.Join(styles[:], "|"), err
}

func query(text string, given ...interface{}) action {
	return func(c *pgx.Conn) (string, error) { return cells(c.QueryRow(ctx, text, given...)) }
}

// simple asks in a message Query, past what pgx itself wants of its simple protocol.
func simple(text string) action {
	return func(c *pgx.Conn) (string, error) {
		results, err := c.PgConn().Exec(ctx, text).ReadAll()
		if err != nil {
			return "", err
		}
		return fmt.Sprintf("%s %s", results[0].CommandTag, results[0].Rows), nil
	}
}

// prepared gives the types that a statement under a name has, and its answer.
func prepared(c *pgx.Conn) (string, error) {
	statement, err := c.Prepare(ctx, "given", "$1")
	if err != nil {
		return "", err
	}
	row, err := query("given", "36:00")(c)
	return fmt.Sprintf("parameters %d, %d columns, %s", statement.ParamOIDs, len(statement.Fields), row), err
}

// batch sends a statement with three parameters before it reads an answer.
func batch(c *pgx.Conn) (string, error) {
	var batch pgx.Batch
	for _, text := range []string{"1 day", "1 fortnight", "2 days"} {
		batch.Queue("$1", text)
	}
	results := c.SendBatch(ctx, &batch)
	first, _ := cells(results.QueryRow())
	_, second := cells(results.QueryRow())
	results.Close()
	behind, err := query("3 days")(c)
	return fmt.Sprint(first, ", ", second, ", and then ", behind), err
}

func byTurns(c *pgx.Conn) (string, error) {
	other, err := connected()
	if err != nil {
		return "", err
	}
	defer other.Close(ctx)
	first, _ := query("1 day")(c)
	second, _ := query("2 days")(other)
	third, err := query("3 days")(c)
	return first + ", " + second + ", " + third, err
}

func main() {
	tell("query", query("1 mon -2 days"))
	tell("simple query", simple("1 mon -2 days"))
	tell("a text as the parameter", query("$1", "36:00"))
	tell("a Duration as the parameter", query("$1", 73*time.Hour))
	tell("null", query("$1", nil))
	tell("prepared", prepared)
	tell("no interval", query("1 fortnight"))
	tell("no interval, simple query", simple("1 fortnight"))
	tell("a parameter that is no interval", query("$1", "1 fortnight"))
	tell("batch of three, the second of them no interval", batch)
	tell("two connections by turns", byTurns)
	tell("Begin", func(c *pgx.Conn) (string, error) { _, err := c.Begin(ctx); return "begun", err })
}
