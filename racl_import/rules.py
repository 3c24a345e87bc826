"""Rules as they were read, by chains, before they are a policy."""
import collections

from .packets import shown

STATES = frozenset(("new", "established", "related", "invalid", "untracked"))

FORWARDED = "a forwarded packet has no form: it is judged as if it were this host's"
TRANSLATED = "it changes addresses or ports: the policy judges packets as they are captured, which the filter's rules see changed, or not at all"
UNROUTED = "what comes from where no route leads back passes, too"
ROUTED = "what has a routing header of type 0 passes as without one, where a host is to drop it itself (RFC 5095)"
HOPS = "its hop limit has no form, so what has another one passes, too, where a host is to drop it itself (RFC 4861)"
IDLE = "it drops no packet"
# What to do about what isn't so.
BEFORE = "a rule before it that decides on the others stands for it"

# What is told at a rule's place, whatever it does; `kind` as of an Item.
Told = collections.namedtuple("Told", "kind why")
# A rule as it was read: where it stands, its text and comment; what it asks of packets, as boxes of which one holds, of flows and of
# devices; what it does, why it has no equal form, and what is told of it. An `action` is permit, deny, reflect, return, jump,
# goto, translate, unknown, or None.
Rule = collections.namedtuple("Rule", "where text comment boxes states devices action target reason told")
# A rule on its way into the policy, or what is told at its place. Of what is told `kind` is the word before it, or "lost" for a
# line without which the policy may pass more.
Item = collections.namedtuple("Item", "kind box states where text comment")
# A chain that sees packets before any other chain calls it: whether what comes to its end is accepted, and what is said of that.
Base = collections.namedtuple("Base", "key is_accept where")


class Wrong(Exception):
    """Why the input can't be read."""


class Ruleset:
    """What was read: rules by chains, and for each direction and family the chains that see its packets, in order. A chain's key ends
    in its name, behind what it shares with the chains that it can call."""

    def __init__(self, name):
        self.name, self.chains, self.bases, self.told = name, {}, {"in": {4: [], 6: []}, "out": {4: [], 6: []}}, []
        self.families, self.has_fragments, self.others = (4, 6), False, set()

    def tell(self, kind, where, text, why):
        item = Item(kind, None, None, where, text, why)
        if item not in self.told:
            self.told.append(item)

    def reached(self, key, seen=None):
        """All rules to which packets of a chain can come."""
        seen = set() if seen is None else seen
        if key in seen:
            return
        seen.add(key)
        for it in self.chains.get(key, ()):
            yield it
            if it.action in ("jump", "goto"):
                yield from self.reached((*key[:-1], it.target), seen)

    def end_all(self):
        """No chain may call itself."""
        ended = set()
        for key in self.chains:
            self.end_calls(key, (), ended)

    def end_calls(self, key, callers, ended):
        if key not in ended:
            for it in self.chains.get(key, ()):
                called = (*key[:-1], it.target)
                if it.action in ("jump", "goto") and called in (*callers, key):
                    raise Wrong(f"{it.where}: the chain {shown(it.target)} calls itself")
                if it.action in ("jump", "goto"):
                    self.end_calls(called, (*callers, key), ended)
            ended.add(key)

    def is_idle(self, key):
        """Whether a chain decides on no packet."""
        return all(it.action in (None, "return", "jump", "goto") for it in self.reached(key))

    def only_permits(self, key):
        """Whether a chain drops nothing."""
        return all(it.action in (None, "return", "jump", "permit") for it in self.reached(key))

    def may_drop(self, base):
        return not base.is_accept or any(it.action in ("deny", "unknown") for it in self.reached(base.key))

    def add_base(self, direction, families, base, is_judged=False):
        """Adds a chain behind those that see packets before. One that drops nothing lets all on to the next, whatever it accepts, and
        is left out where it isn't to be judged anyway."""
        if is_judged or self.may_drop(base):
            for it in families:
                self.bases[direction][it].append(base)
        else:
            self.set_aside(base, "a chain that drops nothing")

    def set_aside(self, base, what, is_forward=False):
        """Tells of a chain that isn't judged: one that drops nothing, changes packets, or sees those that are forwarded alone."""
        seen = set()
        rules = list(self.reached(base.key, seen))
        self.others |= seen
        where = f"chain {shown(' '.join(base.key))}"
        if is_forward:
            if not base.is_accept or not self.is_idle(base.key):
                self.tell("warning" if self.may_drop(base) else "note", where, "", FORWARDED)
            return
        for rule in rules:
            for it in rule.told:
                self.tell(it.kind, rule.where, rule.text, it.why)
            if rule.action == "translate":
                self.tell("warning", rule.where, rule.text, TRANSLATED)
            elif rule.action in ("deny", "unknown"):
                self.tell("lost", rule.where, rule.text, rule.reason or f"a drop has no form in {what}")
        if not base.is_accept:
            self.tell("lost", where, "", f"a drop has no form in {what}")
        elif any(it.action not in ("jump", "goto", "return") for it in rules) and not self.may_drop(base):
            self.tell("note", where, "", IDLE)
