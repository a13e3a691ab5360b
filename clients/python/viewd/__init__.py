"""A client of viewd's gateway: relations that stay what the role may see, and writes.

    async with viewd.connect("ws://127.0.0.1:8080/live", token=token) as db:
        tickets = db.live("tickets", where={"open": True}, order="-id", limit=20)
        await db.insert("tickets", {"id": 7, "agent": "mia", "subject": "Hello", "open": True})
        async for rows in tickets:
            print(rows)

`viewd.plain` has the same without asyncio. docs/CLIENTS.md shows both."""
from . import plain
from .client import Db, connect
from .faults import NotSent, Refused, Undecided, ViewdError
from .rows import Change, Changes, Columns, Live, Row, Value

__all__ = ["Change", "Changes", "Columns", "Db", "Live", "NotSent", "Refused", "Row", "Undecided", "Value", "ViewdError", "connect", "plain"]
__version__ = "1.0.0"
