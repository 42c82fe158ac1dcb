// What node-pg does over styles_server: styles_node-pg.js HOST PORT. A line tells each thing that was tried, and what came.
'use strict'
const pg = require('pg')
const Cursor = require('pg-cursor')
const interval = require('postgres-interval')

const words = { host: process.argv[2], port: Number(process.argv[3]), user: 'demo', database: 'demo' }
// An hour, three days and fourteen months.
const bytes = Buffer.from('00000000d693a400000000030000000e', 'hex')

/** Prints what an action over a new client gives, or its error: the code and the text. */
async function tell(what, action) {
  const client = new pg.Client(words)
  await client.connect()
  let came
  try {
    came = JSON.stringify(await action(client))
  } catch (why) {
    came = `${why.code || ''} ${why.message}`.trim()
  }
  console.log(`${what}: ${came}`)
  await client.end()
}

/** The rows of four styles. */
const rows = async (client, text, values, name) =>
  (await client.query({ rowMode: 'array', text, values, name })).rows.map((row) => row.join('|'))

async function described(client) {
  const result = await client.query('1 day')
  return [result.command, result.rowCount, result.fields.map((field) => [field.name, field.dataTypeID])]
}

async function prepared(client) {
  return [await rows(client, '$1', ['1 day'], 'given'), await rows(client, '$1', ['2 days'], 'given')]
}

async function paged(client) {
  const cursor = client.query(new Cursor('$1', ['36:00'], { rowMode: 'array' }))
  return [(await cursor.read(1)).length, (await cursor.read(1)).length]
}

async function behindAnError(client) {
  const failed = await rows(client, '$1', ['1 fortnight']).catch((why) => why.code)
  return [failed, await rows(client, '$1', ['36:00'])]
}

async function pooled() {
  const pool = new pg.Pool({ ...words, max: 2 })
  const all = await Promise.all(['1 day', '2 days', '3 days'].map((text) => rows(pool, text)))
  await pool.end()
  return all
}

async function main() {
  await tell('query', (c) => rows(c, '1 mon -2 days'))
  await tell('its command, rows and fields', described)
  await tell('a text as the parameter', (c) => rows(c, '$1', ['36:00']))
  await tell('a PostgresInterval as the parameter', (c) => rows(c, '$1', [interval('3 days 01:02:03.4')]))
  await tell('bytes as the parameter', (c) => rows(c, '$1', [bytes]))
  await tell('fewer than sixteen bytes', (c) => rows(c, '$1', [bytes.subarray(1)]))
  await tell('null', (c) => rows(c, '$1', [null]))
  await tell('prepared, twice', prepared)
  await tell('pg-cursor, a row a page', paged)
  await tell('no interval', (c) => rows(c, '1 fortnight'))
  await tell('a parameter that is no interval', (c) => rows(c, '$1', ['1 fortnight']))
  await tell('a query behind an error', behindAnError)
  await tell('three queries in a pool of two', pooled)
  await tell('BEGIN', (c) => c.query('BEGIN'))
}

main().then(() => process.exit(0))
