// What tokio-postgres does over styles_server: styles_tokio_postgres HOST PORT. A line tells each thing that was tried, and
// what came.
use bytes::{BufMut, BytesMut};
use std::{env, error::Error as _};
use tokio_postgres::types::{to_sql_checked, Format, IsNull, ToSql, Type};
use tokio_postgres::{Client, Error, NoTls, Row, SimpleQueryMessage};

/// A parameter's bytes, of any type, and their format.
#[derive(Debug)]
struct Given(&'static [u8], Format);

impl ToSql for Given {
    fn to_sql(&self, _: &Type, out: &mut BytesMut) -> Result<IsNull, Box<dyn std::error::Error + Sync + Send>> {
        out.put_slice(self.0);
        Ok(IsNull::No)
    }

    fn accepts(_: &Type) -> bool {
        true
    }

    fn encode_format(&self, _: &Type) -> Format {
        self.1
    }

    to_sql_checked!();
}

type Parameters<'a> = &'a [&'a (dyn ToSql + Sync)];

/// Prints what came, or the error: the code and the text.
fn tell(what: &str, came: Result<String, Error>) {
    match came {
        Ok(text) => println!("{what}: {text}"),
        Err(why) => {
            let code = why.code().map_or("", |code| code.code());
            let text = why.source().map_or(why.to_string(), |cause| cause.to_string());
            println!("{what}: {}", format!("{code} {text}").trim());
        }
    }
}

async fn connected() -> Client {
    let words: Vec<String> = env::args().collect();
    let address = format!("host={} port={} user=demo dbname=demo", words[1], words[2]);
    let (client, connection) = tokio_postgres::connect(&address, NoTls).await.expect("no connection");
    tokio::spawn(connection);
    client
}

/// The four styles of a row.
fn cells(row: &Row) -> String {
    (0..row.len()).map(|index| row.get::<_, String>(index)).collect::<Vec<String>>().join("|")
}

async fn query(text: &str, given: Parameters<'_>) -> Result<String, Error> {
    Ok(cells(&connected().await.query_one(text, given).await?))
}

async fn simple(text: &str) -> Result<String, Error> {
    let messages = connected().await.simple_query(text).await?;
    let told = messages.iter().map(|message| match message {
        SimpleQueryMessage::Row(row) => (0..row.len()).map(|index| row.get(index).unwrap_or("")).collect::<Vec<&str>>().join("|"),
        SimpleQueryMessage::CommandComplete(count) => format!("{count} rows"),
        _ => "another message".to_string(),
    });
    Ok(told.collect::<Vec<String>>().join(", "))
}

/// The types of a prepared statement, and what it gives for two parameters.
async fn prepared() -> Result<String, Error> {
    let client = connected().await;
    let statement = client.prepare("$1").await?;
    let first = client.query_one(&statement, &[&Given(b"1 day", Format::Text)]).await?;
    let second = client.query_one(&statement, &[&Given(b"2 days", Format::Text)]).await?;
    Ok(format!("{:?}, {}, {}", statement.params(), cells(&first), cells(&second)))
}

/// What a text gives where the statement says that its parameter is a text.
async fn typed(text: &str) -> Result<String, Error> {
    let client = connected().await;
    let statement = client.prepare_typed("$1", &[Type::TEXT]).await?;
    Ok(format!("{:?}, {}", statement.params(), cells(&client.query_one(&statement, &[&text]).await?)))
}

async fn behind_an_error() -> Result<String, Error> {
    let client = connected().await;
    let failed = client.query_one("1 fortnight", &[]).await.is_err();
    Ok(format!("failed {failed}, {}", cells(&client.query_one("1 day", &[]).await?)))
}

async fn at_once() -> Result<String, Error> {
    let asked = ["1 day", "2 days", "3 days"].map(|text| tokio::spawn(query(text, &[])));
    let mut rows = Vec::new();
    for row in asked {
        rows.push(row.await.expect("no answer")?);
    }
    Ok(rows.join(", "))
}

async fn all() {
    let bytes = b"\0\0\0\0\xd6\x93\xa4\0\0\0\0\x03\0\0\0\x0e"; // an hour, three days and fourteen months
    tell("query", query("1 mon -2 days", &[]).await);
    tell("simple_query", simple("1 mon -2 days").await);
    tell("parameter as text", query("$1", &[&Given(b"36:00", Format::Text)]).await);
    tell("parameter in binary", query("$1", &[&Given(bytes, Format::Binary)]).await);
    tell("fewer than sixteen bytes", query("$1", &[&Given(&bytes[1..], Format::Binary)]).await);
    tell("a &str as the parameter", query("$1", &[&"36:00"]).await);
    tell("null", query("$1", &[&None::<Given>]).await);
    tell("prepared, twice", prepared().await);
    tell("prepare_typed as text", typed("36:00").await);
    tell("no interval", query("1 fortnight", &[]).await);
    tell("no interval, simple_query", simple("1 fortnight").await);
    tell("a parameter that is no interval", query("$1", &[&Given(b"1 fortnight", Format::Text)]).await);
    tell("a query behind an error", behind_an_error().await);
    tell("three connections at once", at_once().await);
    tell("transaction", async { connected().await.transaction().await.map(|_| "begun".to_string()) }.await);
}

fn main() {
    tokio::runtime::Builder::new_current_thread().enable_all().build().expect("no runtime").block_on(all());
}
