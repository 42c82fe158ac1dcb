#!/usr/bin/python3 -BP
"""What asyncpg does over the server: asyncpg.py HOST PORT. A line tells each thing that was tried, and what came."""
import asyncio
import io
import sys

import asyncpg

WORDS = {"host": sys.argv[1], "port": int(sys.argv[2]), "user": "demo", "database": "rosters"}


class Unreset(asyncpg.Connection):
    async def reset(self, *, timeout=None):
        """Does nothing, so a pool takes the connection back as it is."""


async def tell(what, action, **more):
    """Prints what an action over a new connection gives, or its error: the code and the beginning of the text."""
    connection = await asyncpg.connect(**WORDS, **more)
    try:
        came = await action(connection)
    except (asyncpg.PostgresError, asyncpg.InterfaceError, asyncio.TimeoutError) as why:
        came = " ".join(f"{type(why).__name__} {getattr(why, 'sqlstate', '')} {why}".split())[:100]
    print(f"{what}: {came}", flush=True)
    connection.terminate()


def texts(rows):
    return [" ".join(map(str, row)) for row in rows]


async def fetch(connection, text="shifts"):
    return texts(await connection.fetch(text))


async def prepared(connection):
    return texts(await (await connection.prepare("contracts")).fetch())


async def pages(connection):
    async with connection.transaction():
        cursor = await connection.cursor("shifts")
        return [len(await cursor.fetch(3)), len(await cursor.fetch(3))]


async def timeout(connection):
    try:
        await connection.fetch("slow", timeout=1)
    except asyncio.TimeoutError:
        return "TimeoutError, and then", texts(await connection.fetch("corrections"))


async def pooled(connection_class):
    async with asyncpg.create_pool(min_size=1, connection_class=connection_class, **WORDS) as pool:
        return [len(await pool.fetch(name)) for name in ("shifts", "corrections")]


async def rollback(connection):
    transaction = connection.transaction()
    await transaction.start()
    await transaction.rollback()


async def main():
    await tell("fetch", fetch)
    await tell("unknown relation", lambda c: fetch(c, "nosuch"))
    await tell("prepare", prepared)
    await tell("cursor in a transaction, by three rows", pages)
    await tell("timeout", timeout)
    await tell("pool, whose reset does nothing", lambda _: pooled(Unreset))
    await tell("pool with its own reset", lambda _: pooled(asyncpg.Connection))
    await tell("copy_from_query", lambda c: c.copy_from_query("shifts", output=io.BytesIO()))
    await tell("copy_from_table", lambda c: c.copy_from_table("shifts", output=io.BytesIO()))
    await tell("text codec", lambda c: c.set_type_codec("interval", schema="pg_catalog", encoder=str, decoder=str))
    await tell("rollback", rollback)
    await tell("IntervalStyle", lambda c: fetch(c, "corrections"), server_settings={"IntervalStyle": "iso_8601"})


asyncio.run(main())
