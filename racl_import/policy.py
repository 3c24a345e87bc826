"""The lines of a policy, and what is told of it."""
from .chains import Flow, others_of
from .packets import ICMP, ICMP6, MOST_RULES, holds, is_icmp, meet, meets, shown, whole_of, words_of
from .rules import Item, Wrong
from .sessions import asking, covering, errors, forward, is_fine, is_of_flows, is_untracked, may_enter, mirrored, openings

OTHER = {"in": "out", "out": "in"}
FRAGMENTS = " # later fragments"
SESSIONS = ("sessions stand for it: they are of TCP, UDP and echo alone, begin with any packet of a rule that reflects, and pass what "
            "conntrack calls invalid")
RELATED = "an ICMP error of a flow is of no session; a rule lets in those of no flow, too"
LIVE = "it drops no packet of a live session, which passes before any rule"


class Writing:
    """A policy as it is written."""

    def __init__(self, ruleset, flows):
        self.ruleset, self.flows, self.lines, self.told, self.is_lost = ruleset, flows, [], [], False
        self.rules = {"in": [], "out": []}

    def tell(self, item):
        """Tells what is said of a line, and writes it as a comment."""
        kind = "left out, which may drop: " if item.kind == "lost" else f"{item.kind}: "
        self.is_lost = self.is_lost or item.kind == "lost"
        where = [shown(item.where)] if item.where else []
        text = [shown(item.text)] if item.text else []
        told = ": ".join([*where, *text, kind + item.comment])
        if told not in self.told:
            self.told.append(told)
            self.lines.append(f"# {told}")

    def tell_of(self, kind, item, why):
        self.tell(Item(kind, None, None, item.where, item.text, why))

    def rule(self, direction, action, box, item, remark=""):
        rule = " ".join(filter(None, (direction, action, words_of(box))))
        where = "" if item is None else ": ".join(filter(None, (shown(item.where), shown(remark or item.comment))))
        self.lines.append(f"{rule} # {where}" if where else rule)
        self.rules[direction].append(box)
        if len(self.rules[direction]) > MOST_RULES:
            raise Wrong(f"the policy has more than {MOST_RULES} rules in a direction")

    def guard(self, direction, box):
        """A rule for later fragments, where one that lets this box through would let through those of others."""
        whole = whole_of(box)
        is_decided = any(holds(whole_of(it), whole) for it in self.rules[direction])
        if box != whole and not is_decided and not self.ruleset.has_fragments:
            none = {"type": (255, 255), "code": (255, 255)} if box.proto in (ICMP, ICMP6) else {"sport": (0, 0), "dport": (0, 0)}
            self.rule(direction, "deny", whole._replace(**none), None, "")
            self.lines[-1] += FRAGMENTS

    def write(self, direction):
        for item in self.flows[direction]:
            if item.box is None:
                self.tell(item)
            elif item.kind == "permit":
                self.accept(direction, item)
            elif item.kind == "reflect":
                self.rule(direction, "permit+reflect", item.box, item)
            elif item.text or not any(holds(it, item.box) for it in self.rules[direction]):
                self.deny(direction, item)

    def deny(self, direction, item):
        lines = [it for it in self.flows[direction] if it.box is not None and is_of_flows(it)]
        if "established" not in item.states and not any(holds(it.box, item.box) for it in lines):
            self.tell_of("warning", item, SESSIONS)
        self.rule(direction, "deny", item.box, item)

    def accept(self, direction, item):
        if "new" not in item.states:
            self.of_flows(direction, item)
        elif item.text or not any(holds(it, item.box) for it in self.rules[direction]):
            if is_icmp(item.box) and "invalid" not in item.states:
                self.tell_related(direction, item)
            if not self.reflect(direction, item, item.box):
                ways = [(it, 0) for it in self.flows[direction]] + [(it, 1) for it in self.flows[OTHER[direction]]]
                parts = [mirrored(it.box) if is_other else it.box for it, is_other in ways if is_of_flows(it)]
                for part in dict.fromkeys(meets([item.box], [it._replace(type=None) for it in parts])):
                    self.reflect(direction, item, part)
                self.permit_alone(direction, item)

    def reflect(self, direction, item, box):
        """Rules that let flows of a box through by sessions, where other lines accept what follows of them; whether there are."""
        way, before, is_needed = covering(self.flows[direction], forward(box))
        back, cuts, is_needed_back = covering(self.flows[OTHER[direction]], mirrored(box))
        if not (way and back and may_enter(box) and (is_needed or is_needed_back)):
            return False
        own = self.flows[direction].index(item)
        if "established" not in item.states and any(self.flows[direction].index(it) > own for it in before):
            return False
        if box.proto is None or is_icmp(box) and "invalid" in item.states:
            self.tell_others(item, box)
        for it in before + cuts:
            if is_fine(it.box):
                self.tell_of("warning", it, LIVE)
        for opening in self.openings(item, box):
            self.guard(direction, opening)
            for it in cuts:
                cut = None if is_fine(it.box) else meet(opening, asking(it.box))
                if cut:
                    self.rule(direction, "permit", cut, item, f"enters no session, since {it.where or 'a policy'} drops its answers")
            self.rule(direction, "permit+reflect", opening, item)
        return True

    def permit_alone(self, direction, item):
        """A rule for packets of which no other line accepts what follows."""
        way, before, _ = covering(self.flows[direction], forward(item.box))
        own, is_established = self.flows[direction].index(item), "established" in item.states
        if not is_established and (not way or any(self.flows[direction].index(it) > own for it in before)):
            self.tell_of("left out", item, "what follows of its flows isn't accepted")
            return
        boxes = [item.box] if is_established else self.openings(item, item.box)
        if boxes == [item.box]:
            self.tell_others(item, item.box)
        for box in boxes:
            self.guard(direction, box)
            self.rule(direction, "permit", box, item)

    def openings(self, item, box):
        found = openings(box, item.states)
        if not found:
            self.tell_of("note", item, "no such packet begins a flow, so it accepts none but of live ones")
        return found

    def tell_others(self, item, box):
        """Tells which packets a rule lets through that the line doesn't."""
        others = others_of(box, item.states)
        if others and not (is_untracked(box) and "untracked" in item.states):
            self.tell_of("warning", item, f"what conntrack calls {others} passes, too")

    def of_flows(self, direction, item):
        """A line that accepts what is of flows alone."""
        if "established" not in item.states:
            self.tell_of("left out", item, f"state {', '.join(sorted(item.states))} has no equal form")
            return
        if any(it.where == item.where and it.box and "new" in it.states for it in self.flows[direction]):
            return
        self.tell_of("warning", item, SESSIONS)
        self.tell_related(direction, item)

    def tell_related(self, direction, item):
        """Tells of ICMP errors that a line accepts where they are of flows, unless another line has them told or passes them all."""
        left = [it for it in errors(item.box) if not self.passes(direction, item, it)] if "related" in item.states else []
        if left:
            self.tell_of("note", item, RELATED)
            hints = [f"# {direction} permit {words_of(it)}" for it in left]
            self.lines += [it for it in hints if it not in self.lines]

    def passes(self, direction, item, box):
        """Whether a line passes all packets of a box whatever their states, or an earlier one accepts what is of flows of it."""
        for it in self.flows[direction]:
            if it.box is not None and it is not item and meet(it.box, box):
                is_whole = "related" in it.states and holds(it.box, box)
                if it.kind == "deny" or is_whole and is_of_flows(it) and not is_of_flows(item):
                    return it.kind != "deny"
                if is_whole and it.kind == "permit" and {"new", "invalid"} <= it.states:
                    return True
        return False


def policy_of(ruleset, file, mac, interface, device):
    ruleset.end_all()
    found = {it: Flow(ruleset, it, device) for it in OTHER}
    writing = Writing(ruleset, {it: flow.all() for it, flow in found.items()})
    reached = found["in"].seen | found["out"].seen | ruleset.others
    for chain, rules in ruleset.chains.items():
        if rules and chain not in reached:
            ruleset.tell("note", f"chain {' '.join(chain)}", "", "what is captured doesn't come to it")
    writing.lines.append(f"# Imported from {ruleset.name}: {'standard input' if file == '-' else shown(file)}.")
    if interface:
        writing.lines.append(f"interface {interface}")
    writing.lines.append(f"mac {mac}" if mac else
                         "# A line `mac ADDRESS` is missing, of the interface's own address: without it no out rule is looked at.")
    for it in ruleset.told:
        writing.tell(it)
    for direction in OTHER:
        writing.write(direction)
    if not ruleset.has_fragments and any(it != whole_of(it) for rules in writing.rules.values() for it in rules):
        writing.tell(Item("note", None, None, "", "", "later fragments, which have no ports, types or flags, are dropped where a rule with those decides"))
    return writing
