"""Going on from a place: by the slot that is there, for a gateway that holds what was told up to it.

The slot knows of no more than the gateway has on its disk. So one that is behind the place, or is not there, is none that goes on from it:
the journal is an older copy, or somebody made the slot anew.
"""
from collections.abc import Callable

from beginning import Beginning, NotReady, ready, slot
from catalog import Relation, connect
from cuts import Steps
from mirror import Mirror, Table
from relations import Made
from settings import Settings
from source import Source, settled
from state import said
from stream import Lost, Stream


def resume(settings: Settings, source: Source, log: str, tables: Callable[[Made, Relation], Table]) -> Beginning:
    """`tables` answers the rows that were told of a table. Raises what `begin` raises; Lost where all has to begin anew."""
    connection = connect(settings.dsn)
    stream: Stream | None = None
    steps: Steps | None = None
    try:
        stream = Stream(settings.dsn, settings.slot, settings.publication)
        if (found := stream.system()) != log:
            raise NotReady(f"the gateway holds the log of {log}, and this is {found}: give it another journal")
        if settled(settings) != source.settings:
            raise Lost("the configuration is another one")
        goes_on(settings, source)
        names = source.names()
        steps = Steps(connection, settings.dsn, stream, list(names), settings.publication, None, source.place, True)
        catalog = steps.ask()[1]
        assert catalog
        ready(catalog, settings)
        mirror = Mirror()

        def held(it: Made, rel: Relation) -> Table:
            one = mirror.tables[it.oid] = tables(it, rel)
            return one
        state = said(catalog, names, settings, held, follows=True)
        stream.begin(source.place.again())
        return Beginning(names, state, mirror, steps, connection, stream, log)
    except BaseException:
        for it in (steps, stream):
            if it:
                it.close()
        connection.close()
        raise


def goes_on(settings: Settings, source: Source) -> None:
    """Whether the slot has all that was not told. Raises Lost."""
    found = slot(settings)
    if found is None:
        raise Lost(f"the slot {settings.slot} is gone")
    if found.is_lost:
        raise Lost(f"the slot {settings.slot} has lost what was not told: max_slot_wal_keep_size was too little")
    if found.kept > source.place.again():
        raise Lost(f"the slot {settings.slot} has gone on beyond what is held: it is of an older copy, or the slot is another one")
    if found.now < source.place.end:
        raise Lost("PostgreSQL is not as far as what is held: it is of an older copy")
