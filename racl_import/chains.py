"""The rules of one direction in the order in which packets meet them, chains written where they are called."""
import re

from .packets import ANY, ICMP, ICMP6, TCP, holds, meets, shown
from .rules import STATES, Item, Wrong

MOST_STEPS = 20000
DROPPED = frozenset(("invalid",))
BEGINNINGS = "of TCP and ICMP the rules behind it let in what may begin a flow, and sessions pass what conntrack calls invalid"


def others_of(box, states):
    """In words, the states of packets of a box that are of no live flow, but for these."""
    kinds = ("invalid", "related", "untracked") if box.proto in (None, ICMP, ICMP6) else ("invalid",) if box.proto == TCP else ()
    others = [it for it in kinds if it not in states]
    return " or ".join(filter(None, (", ".join(others[:-1]), *others[-1:])))


def is_same(rule, other):
    """Whether a rule decides as another does on all its packets, which it ends for both."""
    is_end = rule.action in ("permit", "deny", "goto", "return") and (rule.action, rule.target) == (other.action, other.target)
    return is_end and not (other.reason or other.devices) and rule.states <= other.states and all(
        any(holds(it, box) for it in other.boxes) for box in rule.boxes)


class Flow:
    """The items of a direction."""

    def __init__(self, ruleset, direction, device):
        self.ruleset, self.direction, self.device, self.items, self.steps, self.seen = ruleset, direction, device, [], 0, set()

    def all(self):
        bases = self.ruleset.bases[self.direction]
        if bases[4] == bases[6]:
            self.base(bases[4], 0, ANY, STATES)
        else:
            for family in self.ruleset.families:
                self.base(bases[family], 0, ANY._replace(family=family), STATES)
        found = []
        for it in self.items:
            families = [] if it.box is None else self.ruleset.families if it.box.family is None else [it.box.family]
            found += [it._replace(box=it.box._replace(family=family)) for family in families] or [it]
        return found

    def base(self, chains, level, box, states):
        """All chains that see a packet: what one accepts goes on to the next."""
        if level == len(chains):
            self.add("permit", box, states, "", "", "" if chains else "nothing filters these")
            return
        key, _, where = chains[level]
        left = self.walk(self.rules_of(key), box, states, (), (key,), (chains, level))
        self.end(box, left, (chains, level), where, is_final=True)

    def end(self, box, states, at, where, is_final=False):
        """The policy of a chain, for packets that come to its end."""
        chains, level = at
        if not states:
            return
        if chains[level].is_accept and level + 1 < len(chains):
            self.base(chains, level + 1, box, states)
        elif chains[level].is_accept:
            self.add("permit", box, states, where, "", "")
        elif not is_final or level:
            self.add("deny", box, states, where, "", "")

    def rules_of(self, key):
        self.seen.add(key)
        return self.ruleset.chains.get(key, [])

    def walk(self, rules, box, states, rest, keys, at, is_whole=True):
        """The rules of a list for the packets of a box, and the states of those that come to its end. Where all that comes behind is of
        the list's packets (`is_whole`), what is invalid may be dropped, and states that are dropped are those of no packet behind."""
        for place, rule in enumerate(rules):
            self.steps += 1
            if self.steps > MOST_STEPS:
                raise Wrong(f"{rule.where}: chains that call chains stand for more than {MOST_STEPS} rules")
            if not self.is_of_these(rule, box, rules[place + 1:], keys, at):
                continue
            met = [(it, states & rule.states) for it in meets([box], rule.boxes) if states & rule.states]
            if rule.action == "return" and met == [(box, states)]:
                return states
            if rule.action == "deny" and met == [(box, DROPPED)] and is_whole:
                self.tell("warning", rule, BEGINNINGS)
                states = states - DROPPED
                continue
            others = others_of(met[0][0], STATES - states | rule.states) if met else ""
            if rule.action == "deny" and others and "new" in rule.states:
                self.tell("note", rule, f"what conntrack calls {others} is dropped, too")
            is_all = met == [(box, states)]
            for it in met:
                left = self.decide(rule, *it, (rules[place + 1:], rest), keys, at, is_all and is_whole)
            if is_all and (rule.action == "goto" or rule.action == "jump" and not left):
                return frozenset()
            if rule.action == "deny" and "new" in rule.states and met and met[0][0] == box:
                states = states - rule.states
            states = left if is_all and is_whole and rule.action == "jump" else states
        return states

    def is_of_these(self, rule, box, behind, keys, at):
        """Whether a rule is of some packets of a box, and has an equal form; what there is to tell of it is told else."""
        why, is_here = self.of_device(rule)
        reason = rule.reason or why
        if not rule.boxes or not is_here and not why or self.is_idle(rule, keys):
            self.call(rule, keys)
            is_empty = rule.action == "jump" and not any(self.ruleset.reached(self.called(rule, keys)))
            for kind, said in rule.told or [("note", self.why_idle(rule))] * (not is_empty):
                self.tell(kind, rule, said)
            return False
        if not meets([box], rule.boxes):
            return False
        for kind, said in rule.told:
            self.tell(kind, rule, said)
        if reason or rule.action in ("unknown", "translate"):
            if behind and is_same(rule, next((it for it in behind if not self.is_idle(it, keys)), behind[0])):
                self.tell("note", rule, f"{reason}; the rule behind it does the same to all its packets")
            else:
                self.tell("left out" if self.is_safe(rule, behind, keys, at) else "lost", rule, reason)
            self.call(rule, keys)
            return False
        return True

    def call(self, rule, keys):
        """Notes that packets come to a chain that isn't written out."""
        if rule.action in ("jump", "goto"):
            list(self.ruleset.reached(self.called(rule, keys), self.seen))

    def is_idle(self, rule, keys):
        """Whether a rule decides nothing: it has no target, or calls a chain that has none."""
        return rule.action is None or rule.action == "jump" and self.ruleset.is_idle(self.called(rule, keys)) and not any(
            it.told for it in self.ruleset.reached(self.called(rule, keys)))

    @staticmethod
    def why_idle(rule):
        if not rule.boxes:
            return "it matches nothing"
        if rule.action is None or rule.action == "jump":
            return "it decides nothing"
        return "it is of loopback, which isn't captured" if any(set(names) == {"lo"} for _, names, _ in rule.devices) else \
            "it is of another device than the capture"

    @staticmethod
    def called(rule, keys):
        return (*keys[0][:-1], rule.target)

    def decide(self, rule, box, states, rest, keys, at, is_all):
        """What a rule does to the packets of a box, and the states of those that come back from a jump. `rest` is what is behind it: of
        its own list, and of those that called that."""
        chains, level = at
        if rule.action == "permit" and level + 1 < len(chains):
            self.base(chains, level + 1, box, states)
        elif rule.action in ("permit", "deny", "reflect"):
            self.add(rule.action, box, states, rule.where, rule.text, rule.comment)
        elif rule.action == "return":
            self.leave(rule, box, states, rest[1], keys, at)
        else:
            key = self.called(rule, keys)
            behind = rest if rule.action == "jump" else rest[1]
            states = self.walk(self.rules_of(key), box, states, behind, (*keys, key), at, is_all or rule.action == "goto")
            if rule.action == "goto":
                self.leave(rule, box, states, rest[1], keys, at)
        return states

    def leave(self, rule, box, states, rest, keys, at):
        """What is behind a list, for packets that leave it."""
        while rest and states:
            rules, rest = rest
            keys = keys[:-1] or keys
            states = self.walk(rules, box, states, rest, keys, at)
        self.end(box, states, at, rule.where)

    def of_device(self, rule):
        """Why it isn't known whether a rule is of the capture's device, and whether it is."""
        for direction, names, negated in rule.devices:
            patterns = [re.escape(it).replace(r"\*", ".*") for it in names]
            if direction != self.direction:
                is_met = False
            elif self.device:
                is_met = any(re.fullmatch(it, self.device) for it in patterns)
            elif all(it == "lo" for it in names):
                is_met = False
            else:
                return f"the device {shown(', '.join(it for it in names if it != 'lo'))} has no form; --device names that of the capture", False
            if is_met == negated:
                return None, False
        return None, True

    def is_safe(self, rule, behind, keys, at):
        """Whether a policy without this rule passes no more. `behind` is the rest of its list."""
        if rule.action in ("permit", "reflect"):
            return True
        if rule.action == "return":
            return all(it.action in (None, "deny", "return") for it in behind) if len(keys) > 1 else at[0][at[1]].is_accept
        return rule.action == "jump" and self.ruleset.only_permits(self.called(rule, keys))

    def tell(self, kind, rule, why):
        item = Item(kind, None, None, rule.where, rule.text, why)
        if item not in self.items:
            self.items.append(item)

    def add(self, kind, box, states, where, text, comment):
        if kind == "deny" and "new" not in states:
            if not any(it.box and states <= it.states and holds(it.box, box) for it in self.items):
                why = f"drops of state {', '.join(sorted(states))} alone have no equal form"
                self.items.append(Item("lost", None, None, where, text, why))
        else:
            self.items.append(Item(kind, box, states, where, text, comment))
