"""A vnode by its rules alone, to compare a node's replies with, byte for byte: a clock of dots for each key, epochs, copies from another vnode."""
import struct

from trying import DELETED, ERROR, GOT, STORED, field, frame

# so many siblings of a key, and so many actors in a clock, at most
MOST = 64
TOMBSTONE = field(1, field(1, b"") + b"\x58\1")
UNCHANGED = frame(GOT, b"\x18\1")


def error(text):
    return frame(ERROR, field(1, text) + b"\x10\1")


def synced(one, other):
    """Two entries of an actor as one: of each its counter, and its values, the newest first."""
    (most, values), (less, others) = (one, other) if one[0] >= other[0] else (other, one)
    if most - len(values) >= less - len(others):
        return most, values
    return most, values[: most - less + len(others)]


def sync(clock, other):
    return {actor: synced(clock.get(actor, (0, [])), other.get(actor, (0, []))) for actor in {*clock, *other}}


def siblings(clock):
    """The values by rising actor, the newest first."""
    return [value for actor in sorted(clock) for value in clock[actor][1]]


def pairs(clock):
    """What a clock has seen: its entries without values."""
    return {actor: (entry[0], []) for actor, entry in clock.items()}


def context_of(clock):
    return b"\2" + b"".join(struct.pack(">QIQ", *actor, clock[actor][0]) for actor in sorted(clock))


def pairs_of(context):
    """What a context stands for: nothing, where there is none."""
    return {entry[:2]: (entry[2], []) for entry in struct.iter_unpack(">QIQ", context[1:])}


class Vnode:
    """The keys of a vnode: of each its own actor, which it has once it was written here, and its clock."""

    def __init__(self, number, epoch=0):
        self.number, self.epoch, self.keys = number, epoch, {}

    def at(self, key):
        return self.keys.get(key, (None, {}))

    def is_present(self, key):
        return any(value is not None for value in siblings(self.at(key)[1]))

    def is_dead(self, key):
        return bool(siblings(self.at(key)[1])) and not self.is_present(key)

    def reap_first(self):
        """Forgets the first dead key, where there is one."""
        dead = [key for key in sorted(self.keys) if self.is_dead(key)]
        for key in dead[:1]:
            del self.keys[key]

    def shows(self, key, is_bare):
        """The siblings of a key, and its context, as a reply has them."""
        clock = self.at(key)[1]
        contents = [TOMBSTONE if value is None else field(1, field(1, b"" if is_bare else value)) for value in siblings(clock)]
        return b"".join(contents) + field(2, context_of(clock))

    def get(self, key, seen, is_bare, wants_context):
        clock = self.at(key)[1]
        if not self.is_present(key):
            return frame(GOT, field(2, context_of(clock)) if wants_context and self.is_dead(key) else b"")
        return UNCHANGED if seen == pairs(clock) else frame(GOT, self.shows(key, is_bare))

    def names_unissued(self, key, seen):
        """Whether a context names a dot of this vnode that none has been given."""
        own, clock = self.at(key)
        return any(actor[0] == self.number and actor[1] > self.epoch for actor in seen) or own in seen and seen[own][0] > clock[own][0]

    def lacks_room(self, key, seen):
        """Why a key has no room for one value more, where it has none."""
        own, clock = self.at(key)
        if len(siblings(sync(clock, seen))) >= MOST:
            return error(b"too many siblings")
        return error(b"clock full") if len({*clock, *seen, own}) > MOST else None

    def write(self, key, value, seen):
        """A value, or None for a tombstone, over what was seen."""
        own, clock = self.at(key)
        if own is None:
            self.epoch += 1
            own = self.number, self.epoch
        clock = sync(clock, seen)
        counter, values = clock.get(own, (0, []))
        self.keys[key] = own, {**clock, own: (counter + 1, [value, *values])}

    def put(self, key, value, seen, if_none_match, if_not_modified, shows_head, shows_body):
        if self.names_unissued(key, seen):
            return error(b"bad context")
        if if_none_match and self.is_present(key):
            return error(b"match_found")
        if if_not_modified and not if_none_match:
            if not self.is_present(key):
                return error(b"notfound")
            if seen != pairs(self.at(key)[1]):
                return error(b"modified")
        refusal = self.lacks_room(key, seen)
        if refusal:
            return refusal
        self.write(key, value, seen)
        return frame(STORED[4], self.shows(key, not shows_body)) if shows_head or shows_body else STORED

    def delete(self, key, seen):
        clock = self.at(key)[1]
        if not seen and not clock:
            return DELETED
        if self.names_unissued(key, seen):
            return error(b"bad context")
        seen = seen or pairs(clock)
        refusal = self.lacks_room(key, seen)
        if not refusal:
            self.write(key, None, seen)
        return refusal or DELETED

    def left_of(self, fallback):
        """The fallback's keys that aren't here as they are there, by the counters of their own actors."""
        keys = sorted(fallback.keys.items())
        return [key for key, (own, clock) in keys if self.at(key)[1].get(own, (0,))[0] != clock[own][0]]

    def copy(self, fallback, budget):
        """Copies so many of these keys, where there is room for them, and returns how many."""
        copied = 0
        for key in self.left_of(fallback)[:budget]:
            own, clock = self.at(key)
            both = sync(clock, fallback.keys[key][1])
            if len(siblings(both)) <= MOST and len(both) <= MOST:
                self.keys[key], copied = (own, both), copied + 1
        return copied
