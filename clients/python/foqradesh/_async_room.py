"""A room for asyncio. `_room_plans` tells what a room is, and how its messages are spelled."""

from __future__ import annotations

from typing import AsyncIterator, Mapping, Optional

from ._async import RoomBase
from ._async_client import AsyncClient
from ._reading import RoomEntry
from ._room_plans import PATIENCE, RoomPlans, named
from ._speaking import RoomNumber
from ._words import Spec


class AsyncRoom(RoomBase):
    """A room at its members' nodes, for one member: what it says, and what it reads.

    A group takes as many messages as it was made with. A room goes on: its groups are its
    generations, made one after the other with the same spec, and at most four of them live at a
    node. Each member's clients make, open, mark and drop them by themselves (docs/CLIENTS.md,
    "Rooms"). So all of them use this class, or one that spells messages as its module tells.

    A room is for tasks of one event loop: they may say and read at the same time. Says are done
    one after the other, in the order in which they are begun. One task follows. A say that is
    cancelled leaves open whether it is done.

    With a leader what all members say goes through one of them, so that all read it in one order,
    also where the leader crashes: generation by generation the members take turns as leaders. A
    say returns when its message has its place in that order. Its number is that of the message
    among the leader's in the generation, and `origin` of an entry is the node of the room that
    said it.

    Several programs may speak for one member, each with a room of its own. A member for which
    nobody reads holds up the room when four generations live at its node, and so does one that
    crashed, until `exclude` names it.
    """

    def __init__(
        self,
        clients: Mapping[int, AsyncClient],
        tenant: int,
        number: int,
        spec: Spec,
        *,
        node: int,
        leader: Optional[int] = None,
        patience: float = PATIENCE,
    ) -> None:
        """Names the room. Nothing is sent yet.

        `clients` has a client of each member's node, by the node's number. `tenant` and `number`
        are 0 to 65,535. `spec` is what each generation is made with, so all members give the same;
        its `messages` and `total_bytes` are at least 2, since a marker has its place in them.
        `node` is the member for which this room speaks and reads. `patience` is how long a say
        waits for what may pass, in seconds, 0 or more. ValueError if one of these is something
        else.

        `leader` is the node that leads generation 0; the next members lead the next generations
        in turn. All rooms give the same. The kind is `fallack` or `fmajority`, a generation takes
        3 messages and 50 bytes at least, and each client needs the member's token at its own node.

        Clients need the tenant's token, to make and to drop generations. If each of them also has
        the member's token at its own node, as `Keys` make it, a room knows when nobody needs a
        generation any more. Else it keeps one until it has read the next one to its end.
        """
        operations = {it: client.operations for it, client in clients.items()}
        nodes = named(operations, (tenant, number), spec, node, leader)
        super().__init__(clients, RoomPlans(nodes, patience))
        self.tenant = tenant
        self.number = number
        self.spec = spec
        self.node = node

    @property
    def generation(self) -> Optional[int]:
        """The generation in which the member speaks, or None if that is not known yet."""
        return self._plans.generation()

    @property
    def leader(self) -> Optional[int]:
        """The node that leads that generation. None without a leader, or if it is not known yet."""
        return self._plans.leader()

    async def join(self) -> None:
        """Find the generation in which the member speaks, which the first `say` does by itself.

        The newest one is taken. Where there is none, the first is made at each member's node and
        then opened at each. It raises what `say` does.
        """
        async with self._saying():
            await self._run(self._plans.join())

    async def say(self, payload: bytes, *, repeat: Optional[RoomNumber] = None) -> RoomNumber:
        """Say a message, and return its generation and its number there.

        A payload has 0 to 4,095 bytes, else TooLongError is raised. With one byte before it and a
        marker of one byte it fits into the bytes of a generation, else BytesError is.

        When the member has used three quarters of a generation's messages or bytes, the room goes
        on: the next one is made at each member's node, opened at each when all have answered, and
        spoken in after a marker. If that has to wait, the rest of this one is used up first. Then
        it is tried again for as long as the patience, and so is what else may pass. After that is
        raised what was answered last: NoRoomError if four generations live at some member's node,
        WindowError, OutOfMemoryError, or ConnectionFailedError, TimedOutError or BadReplyError of
        a node that did not answer, whose `generation` is None.

        What is certain:

        - What is returned stands, once. What `Client.say` tells of two clients of one member that
          say the very same bytes holds here too.
        - Where a refusal is raised the message was not said, and will not be, and so it is where
          ConnectionFailedError, TimedOutError or BadReplyError has `generation` None.
          BadPlaceError: another client of the member has said something that is not delivered yet,
          and it may be the marker.
        - ConnectionFailedError, TimedOutError, BadReplyError and UnknownOutcomeError with a
          `generation`: the message may or may not be said, once at most. Then `say` of the same
          payload with `repeat` as `RoomNumber(error.generation, error.number)` goes on where it
          ended, also in another room. It is said anew if it certainly was not. Where the
          generation was dropped since, nothing tells, and UnknownOutcomeError is raised again; the
          room itself keeps it for as long as its patience, or until its next say.

        With a leader:

        - A payload has 4,086 bytes at most, and ten bytes before it.
        - Where a member crashed, an error is raised whose `node` is its node,
          ConnectionFailedError in most cases. Give it to `exclude`, and say the message again,
          with `repeat` if the error has a `generation`. If it led, the others seal its generation,
          and the next leader goes on.
        - `repeat` is for the last say of the same room, else ValueError is raised. Where the
          message has a place in the order it is found, and else it is said anew: once in all.
        - UnknownOutcomeError: the message was said, and is not delivered here yet. It may pass.

        SpentError: the last generation, 4,294,967,295, is full. The other refusals are those of
        `make`, `open` and `say`. MissingTokenError if a client has no token for what it is to ask.
        """
        async with self._saying():
            return await self._run(self._plans.speaker.say(payload, repeat))

    async def follow(
        self, *, idle: Optional[float] = None, drops: bool = True
    ) -> AsyncIterator[RoomEntry]:
        """Yield the messages of the room, each once, as they come.

        It begins with the oldest generation that lives at the node, of the 16 up to the newest,
        and goes on for ever, or until nothing came for `idle` seconds, 0 or more. A further call
        goes on where the last one ended. A room that is nowhere yet is begun, as by `join`.

        Each member's messages come in the order of their generations: those of one are shown when
        those of the one before were read, up to the member's marker. Within a generation they have
        the order in which the node delivered them. A generation that was never made here, or that
        another client has dropped, is passed over.

        A generation that was read to its end is dropped at this node, once what stands behind it
        is asked for and each other running member's node has its whole log: a drop gives up what
        waits for others. With `drops` False nothing is dropped; all readers of one node but one
        read so. Where another member has gone on, this one's marker is said too, so a member that
        says nothing holds up nobody.

        It connects again where a connection ended. It raises what `Client.wait`, `make`, `open`,
        `say` and `drop` raise, and may be called again after it. NoGroupError: the node's server
        was started anew, and has none of the room.
        """
        end = None if idle is None else self._plans.clock() + idle
        reader, ready, self._drops = self._plans.reader, self._plans.reader.ready, drops
        while True:
            if ready:
                while ready:
                    yield ready.popleft()
                end = None if idle is None else self._plans.clock() + idle
            await self._run(self._plans.read(drops, end))
            if end is not None and not reader.has_taken and self._plans.clock() >= end:
                return

    def exclude(self, node: int) -> None:
        """Go on without the member of a node that has crashed, and does not come back.

        Nothing is asked at its node any more, no generation is made there, and no marker of it is
        waited for. Each room of each other member has to be told. With a leader one room is enough:
        the others find the seals of the first generation that the node leads and the room leaves.
        If the node runs after all, what is said in later generations is lost there, and in kinds
        `allack` and `fallack` is not delivered anywhere. ValueError if the node is no other
        member's.
        """
        self._plans.exclude(node)
