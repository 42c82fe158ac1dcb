// What pgx does over the server: pgx HOST PORT. A line tells each thing that was tried, and what came.
package main

import (
	"context"
	"fmt"
	"os"
	"strings"
	"time"

	"github.com/jackc/pgx/v4"
)

type action func(*pgx.Conn) (string, error)

var ctx = context.Background()

// tell prints what an action over a new connection gives, or its error.
func tell(what, more string, of action) {
	address := fmt.Sprintf("host=%s port=%s user=demo dbname=rosters %s", os.Args[1], os.Args[2], more)
	came := ""
	c, err := pgx.Connect(ctx, address)
	if err == nil {
		defer c.Close(ctx)
		came, err = of(c)
	}
	if err != nil {
		came = err.Error()
	}
	fmt.Printf("%s: %s\n", what, came)
}

// first gives the first column of all rows, a binary cell in hexadecimal.
func first(rows pgx.Rows, err error) (string, error) {
	cells := []string{}
	for err == nil && rows.Next() {
		layout := map[int16]string{0: "%s", 1: "%x"}[rows.FieldDescriptions()[0].Format]
		cells = append(cells, fmt.Sprintf(layout, rows.RawValues()[0]))
	}
	if err == nil {
		err = rows.Err()
	}
	return strings.Join(cells, ", "), err
}

func query(text string, words ...interface{}) action {
	return func(c *pgx.Conn) (string, error) { return first(c.Query(ctx, text, words...)) }
}

func prepared(c *pgx.Conn) (string, error) {
	if _, err := c.Prepare(ctx, "p", "contracts"); err != nil {
		return "", err
	}
	return query("p")(c)
}

func batch(c *pgx.Conn) (string, error) {
	var batch pgx.Batch
	batch.Queue("contracts")
	batch.Queue("leave")
	results := c.SendBatch(ctx, &batch)
	defer results.Close()
	one, _ := first(results.Query())
	other, err := first(results.Query())
	return one + "; " + other, err
}

// transaction asks a query between Begin and this end.
func transaction(end func(pgx.Tx, context.Context) error) action {
	return func(c *pgx.Conn) (string, error) {
		t, err := c.Begin(ctx)
		if err != nil {
			return "", err
		}
		came, _ := first(t.Query(ctx, "corrections"))
		return came, end(t, ctx)
	}
}

func copyTo(c *pgx.Conn) (string, error) {
	var target strings.Builder
	tag, err := c.PgConn().CopyTo(ctx, &target, "COPY leave TO STDOUT")
	return fmt.Sprintf("%s %q", tag, target.String()), err
}

func cancel(c *pgx.Conn) (string, error) {
	time.AfterFunc(time.Second, func() { c.PgConn().CancelRequest(ctx) })
	return query("slow")(c)
}

// texts asks 513 texts of one relation.
func texts(c *pgx.Conn) (string, error) {
	for i := 1; i <= 513; i++ {
		if _, err := query("unstaffed" + strings.Repeat(" ", i))(c); err != nil {
			return "", fmt.Errorf("text %d: %w", i, err)
		}
	}
	return "513 texts", nil
}

func main() {
	tell("query", "", query("corrections"))
	tell("unknown relation", "", query("nosuch"))
	tell("prepared", "", prepared)
	tell("batch", "", batch)
	tell("Begin and Commit", "", transaction(pgx.Tx.Commit))
	tell("CopyTo", "", copyTo)
	tell("CancelRequest", "", cancel)
	tell("simple protocol", "", query("shifts", pgx.QuerySimpleProtocol(true)))
	tell("Rollback", "", transaction(pgx.Tx.Rollback))
	for _, more := range []string{"", "statement_cache_capacity=0", "statement_cache_mode=describe"} {
		tell(strings.TrimSpace("513 texts "+more), more, texts)
	}
	tell("intervalstyle=iso_8601", "intervalstyle=iso_8601", query("corrections"))
	tell("the same with QueryResultFormats{0}", "intervalstyle=iso_8601", query("corrections", pgx.QueryResultFormats{0}))
}
