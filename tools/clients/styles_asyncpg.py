#!/usr/bin/python3 -BP
"""What asyncpg does over styles_server: styles_asyncpg.py HOST PORT. A line tells each thing that was tried, and what came."""
import asyncio
import datetime
import sys

import asyncpg

WORDS = {"host": sys.argv[1], "port": int(sys.argv[2]), "user": "demo", "database": "demo"}
SPAN = datetime.timedelta(days=3, hours=1)


async def tell(what, action):
    """Prints what an action over a new connection gives, or its error: the code and the text."""
    connection = await asyncpg.connect(**WORDS)
    try:
        came = await action(connection)
    except (asyncpg.PostgresError, asyncpg.InterfaceError) as why:
        came = " ".join(f"{type(why).__name__} {getattr(why, 'sqlstate', '')} {why}".split())
    print(f"{what}: {came}", flush=True)
    connection.terminate()


async def fetch(connection, text, *given):
    return ["|".join(row) for row in await connection.fetch(text, *given)]


async def prepared(connection):
    """What a statement that is prepared under a name wants, has and gives for each of two parameters."""
    statement = await connection.prepare("$1", name="given")
    kinds = [[it.name for it in statement.get_parameters()], [f"{it.name} {it.type.name}" for it in statement.get_attributes()]]
    return kinds, ["|".join(await statement.fetchrow(SPAN * times)) for times in (1, 2)]


async def behind_an_error(connection):
    try:
        await fetch(connection, "$1", None)
    except asyncpg.PostgresError:
        return await fetch(connection, "$1", SPAN)


async def at_once(connection):
    other = await asyncpg.connect(**WORDS)
    return await asyncio.gather(fetch(connection, "1 day"), fetch(other, "2 days"))


async def in_transaction(connection):
    async with connection.transaction():
        return await fetch(connection, "1 day")


async def main():
    await tell("simple query", lambda c: c.execute("1 mon -2 days"))
    await tell("fetch", lambda c: fetch(c, "1 mon -2 days"))
    await tell("prepare", prepared)
    await tell("a timedelta as the parameter", lambda c: fetch(c, "$1", SPAN))
    await tell("a text as the parameter", lambda c: fetch(c, "$1", "36:00"))
    await tell("null", lambda c: fetch(c, "$1", None))
    await tell("executemany", lambda c: c.executemany("$1", [(SPAN,), (SPAN,)]))
    await tell("no interval", lambda c: fetch(c, "1 fortnight"))
    await tell("no interval, simple query", lambda c: c.execute("1 fortnight"))
    await tell("a query behind an error", behind_an_error)
    await tell("two connections at once", at_once)
    await tell("transaction", in_transaction)


asyncio.run(main())
