// What tokio-postgres does over the server: tokio_postgres HOST PORT. A line tells each thing that was tried, and what came.
use std::{env, error::Error as _, time::Duration};
use tokio_postgres::types::{FromSql, Type};
use tokio_postgres::{Client, Error, NoTls, Row, SimpleQueryMessage};

/// A cell's bytes, of any type.
struct Cell(Vec<u8>);

impl<'a> FromSql<'a> for Cell {
    fn from_sql(_: &Type, bytes: &'a [u8]) -> Result<Self, Box<dyn std::error::Error + Sync + Send>> {
        Ok(Cell(bytes.to_vec()))
    }

    fn accepts(_: &Type) -> bool {
        true
    }
}

/// Prints what came, or the error: the code and the text.
fn tell(what: &str, came: Result<String, Error>) {
    match came {
        Ok(text) => println!("{what}: {text}"),
        Err(why) => {
            let code = why.code().map_or("", |code| code.code());
            let text = why.source().map_or(why.to_string(), |cause| cause.to_string());
            println!("{what}: {}", format!("{code} {text}").trim());
        }
    }
}

async fn connected_by(more: &str) -> Result<Client, Error> {
    let words: Vec<String> = env::args().collect();
    let address = format!("host={} port={} user=demo dbname=rosters {more}", words[1], words[2]);
    let (client, connection) = tokio_postgres::connect(&address, NoTls).await?;
    tokio::spawn(connection);
    Ok(client)
}

async fn connected() -> Client {
    connected_by("").await.expect("no connection")
}

/// The first column of all rows, in hexadecimal.
fn first(rows: &[Row]) -> String {
    let hexadecimal = |row: &Row| row.get::<_, Cell>(0).0.iter().map(|byte| format!("{byte:02x}")).collect();
    rows.iter().map(hexadecimal).collect::<Vec<String>>().join(", ")
}

async fn query(text: &str) -> Result<String, Error> {
    Ok(first(&connected().await.query(text, &[]).await?))
}

async fn simple(text: &str) -> Result<String, Error> {
    let messages = connected().await.simple_query(text).await?;
    let told = messages.iter().map(|message| match message {
        SimpleQueryMessage::Row(row) => row.get(0).unwrap_or("").to_string(),
        SimpleQueryMessage::CommandComplete(count) => format!("{count} rows"),
        _ => "another message".to_string(),
    });
    Ok(told.collect::<Vec<String>>().join(", "))
}

/// Two pages of three rows, in a transaction.
async fn paged() -> Result<String, Error> {
    let mut client = connected().await;
    let transaction = client.transaction().await?;
    let portal = transaction.bind("shifts", &[]).await?;
    let pages = [transaction.query_portal(&portal, 3).await?.len(), transaction.query_portal(&portal, 3).await?.len()];
    transaction.commit().await?;
    Ok(format!("{pages:?} rows"))
}

async fn rollback() -> Result<String, Error> {
    connected().await.transaction().await?.rollback().await?;
    Ok("done".to_string())
}

async fn canceled() -> Result<String, Error> {
    let client = connected().await;
    let token = client.cancel_token();
    tokio::spawn(async move {
        tokio::time::sleep(Duration::from_secs(1)).await;
        let _ = token.cancel_query(NoTls).await;
    });
    Ok(first(&client.query("slow", &[]).await?))
}

async fn copied() -> Result<String, Error> {
    connected().await.copy_out("COPY leave TO STDOUT").await?;
    Ok("begun".to_string())
}

async fn all() {
    tell("query", query("shifts").await);
    tell("unknown relation", query("nosuch").await);
    tell("simple_query", simple("corrections").await);
    tell("transaction, three rows a page", paged().await);
    tell("cancel", canceled().await);
    tell("rollback", rollback().await);
    tell("copy_out", copied().await);
    tell("IntervalStyle", connected_by("IntervalStyle=iso_8601").await.map(|_| "connected".to_string()));
}

fn main() {
    tokio::runtime::Builder::new_current_thread().enable_all().build().expect("no runtime").block_on(all());
}
