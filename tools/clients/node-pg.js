// What node-pg does over the server: node-pg.js HOST PORT. A line tells each thing that was tried, and what came.
'use strict'
const pg = require('pg')
const Cursor = require('pg-cursor')
const QueryStream = require('pg-query-stream')

const words = { host: process.argv[2], port: Number(process.argv[3]), user: 'demo', database: 'rosters' }
const sleep = (milliseconds) => new Promise((resolve) => setTimeout(resolve, milliseconds))

/** A client that names a style of intervals as it connects. */
class Styled extends pg.Client {
  getStartupConf() {
    return { ...super.getStartupConf(), IntervalStyle: 'iso_8601' }
  }
}

/** Prints what an action over a new client gives, or its error: the code and the text. */
async function tell(what, action, Client = pg.Client) {
  const client = new Client(words)
  client.on('error', () => {})
  let came
  try {
    await client.connect()
    came = JSON.stringify(await action(client))
  } catch (why) {
    came = `${why.code || ''} ${why.message}`.trim()
  }
  console.log(`${what}: ${came}`)
  await Promise.race([client.end().catch(() => {}), sleep(1000)])
}

/** The first column of all rows. */
const first = async (client, query) => (await client.query({ rowMode: 'array', ...query })).rows.map((row) => row[0])
const spans = async (client) => (await first(client, { text: 'corrections' })).map(String)
const lasts = async (client, query) => (await first(client, query)).map((span) => span.toPostgres())

async function paged(client) {
  const cursor = client.query(new Cursor('shifts'))
  return [(await cursor.read(3)).length, (await cursor.read(3)).length]
}

async function streamed(client) {
  const rows = client.query(new QueryStream('shifts', [], { batchSize: 3 }))
  return (await rows.toArray()).length
}

async function pooled() {
  const pool = new pg.Pool({ ...words, max: 2 })
  const results = await Promise.all(['shifts', 'shifts', 'corrections'].map((text) => pool.query(text)))
  return results.map((result) => result.rows.length)
}

/** Asks for `slow`, which a second client cancels by the first one's process id and key. */
async function canceled(client) {
  const query = new pg.Query('slow')
  const failed = new Promise((resolve) => query.on('error', resolve))
  client.query(query)
  await sleep(1000)
  new pg.Client(words).cancel(client, query)
  const why = await failed
  return [why.code, why.message, await lasts(client, { text: 'leave' })]
}

async function main() {
  await tell('query', (c) => lasts(c, { text: 'shifts' }))
  await tell('unknown relation', (c) => c.query('nosuch'))
  await tell('prepared', (c) => lasts(c, { name: 'p', text: 'contracts' }))
  await tell('pg-cursor, three rows a page', paged)
  await tell('pg-query-stream', streamed)
  await tell('pool', pooled)
  await tell('cancel', canceled)
  await tell('BEGIN and COMMIT', async (c) => [(await c.query('BEGIN')).command, (await c.query('COMMIT')).command])
  await tell('ROLLBACK', (c) => c.query('ROLLBACK'))
  await tell('prepared, binary: true', (c) => c.query({ name: 'p', text: 'corrections', binary: true }))
  await tell('IntervalStyle', (c) => lasts(c, { text: 'corrections' }), Styled)
  pg.types.setTypeParser(1186, (text) => text)
  await tell('IntervalStyle and a parser of texts', spans, Styled)
}

main().then(() => process.exit(0))
