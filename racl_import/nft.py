"""The rules of `nft -j list ruleset`."""
import json

from .nft_matches import Asked, Table, as_list
from .nft_text import compact, text_of_rule
from .packets import ANY, ICMP6, NoForm, shown
from .rules import STATES, Base, Rule, Ruleset, Told, Wrong

# The hooks that see what is captured, each with its direction and its place in it. Conntrack sees packets before chains of a
# priority above its own.
HOOKS = {"prerouting": ("in", 0), "input": ("in", 1), "output": ("out", 0), "postrouting": ("out", 1)}
CONNTRACK = -200
VERDICTS = {"accept": "permit", "drop": "deny", "reject": "deny", "return": "return", "jump": "jump", "goto": "goto", "continue": None,
            **dict.fromkeys(("dnat", "snat", "masquerade", "redirect"), "translate")}
STATEMENTS = {"counter", "log", "xt comment", "last"}


def is_mark(key):
    """Whether what a statement changes is nothing but what other rules may ask for, which is told there."""
    return any(it.get("key") in ("mark", "priority", "nftrace", "label") for it in key.values())


def family_of_reject(given):
    """The family of packets that are rejected so, which nft doesn't write of a table for both."""
    return {"icmp": 4, "icmpv6": 6}.get(given.get("type")) if isinstance(given, dict) else None


class Reading:
    """A rule of nft as it is read, statement by statement."""

    def __init__(self, table):
        self.table, self.asked, self.endings, self.reason, self.is_open = table, Asked(table.family), [], None, False

    def take(self, statement):
        (word, given), = statement.items() if isinstance(statement, dict) else [(statement, None)]
        try:
            self.statement(word, given, statement)
        except NoForm as why:
            self.reason = self.reason or str(why)
        except (KeyError, TypeError, AttributeError, ValueError, IndexError):
            self.reason = self.reason or f"`{shown(compact(statement))}` is of no known form"
        # (a statement that isn't known may be a verdict, or change what later rules see)
        self.is_open = self.is_open or bool(self.reason) and word != "match"

    def statement(self, word, given, whole):
        if word == "match":
            self.table.ask(self.asked, given)
        elif word == "vmap":
            self.endings += self.table.verdicts(given)
        elif word in VERDICTS:
            family = family_of_reject(given) if word == "reject" else None
            if family:
                self.asked.alternatives.append([ANY._replace(family=family)])
            self.endings.append(([ANY], STATES, [], whole))
        elif not (word in STATEMENTS or word == "mangle" and is_mark(given["key"]) or word == "set" and not given.get("stmt")):
            raise NoForm(f"`{shown(word)}` has no equal form")

    def rules(self, where, text, comment, chains):
        """The rules that it stands for: several where it has a map of verdicts."""
        if self.is_open and not self.endings:
            self.endings.append(([ANY], STATES, [], {"unknown": None}))
        for boxes, named, devices, verdict in self.endings or [([ANY], STATES, [], {"continue": None})]:
            (word, given), = verdict.items() if isinstance(verdict, dict) else [(verdict, None)]
            action, why, asked = VERDICTS.get(word, "unknown"), self.reason, self.asked
            target = given.get("target") if isinstance(given, dict) else None
            if action == "translate":
                why = why or f"`{word}` has no equal form"
            elif action in ("jump", "goto") and target not in chains or action == "unknown":
                action, why = "unknown", why or f"`{shown(compact(verdict))}` has no equal form"
            found, told = [ANY], list(asked.told)
            try:
                found = asked.boxes(boxes)
            except NoForm as no_form:
                why = why or str(no_form)
            for wanted, warning in asked.soft:
                if action != wanted or wanted == "permit" and any(it.proto != ICMP6 for it in found):
                    why = why or "a condition has no equal form but of what is accepted of ICMPv6, or dropped"
                elif not why:
                    told.append(Told("warning", warning))
            if asked.soft and action == "deny" and not why:
                action = None
            yield Rule(where, text, comment, found, asked.states & named, asked.devices + devices, action, target, why, told)


def rules_of(table, it, chains):
    where = f"rule {shown(it.get('handle', '?'), 20)} of {shown(it['family'])} {shown(it['table'])} {shown(it['chain'])}"
    reading = Reading(table)
    for statement in it["expr"]:
        reading.take(statement)
    return reading.rules(where, text_of_rule(it["expr"]), it.get("comment", ""), chains)


def is_dormant(ruleset, table):
    """Whether no chain of a table sees packets. Of one that has a flag nft 1.0.6 writes the table's name instead."""
    flags, where = as_list(table.get("flags", [])), f"table {shown(table['family'])} {shown(table['name'])}"
    if "dormant" in flags:
        ruleset.tell("note", where, "", "it is dormant: its chains see no packets")
    elif not set(flags) <= {"owner", "persist"}:
        ruleset.tell("lost", where, "", "it has a flag whose name isn't written; where that is dormant, its chains see no packets")
    return not set(flags) <= {"owner", "persist"}


def read(text, own):
    """The rules of a listing, of which the host has these addresses."""
    try:
        objects = [next(iter(it.items())) for it in json.loads(text)["nftables"]]
    except (ValueError, KeyError, TypeError, AttributeError, StopIteration):
        raise Wrong("this isn't what `nft -j list ruleset` writes, which is wanted, as JSON") from None
    ruleset, tables, hooks = Ruleset("nft"), {}, []
    try:
        for kind, it in objects:
            take_declared(ruleset, tables, own, kind, it)
        for kind, it in objects:
            key = it.get("family"), it.get("table")
            if kind == "rule":
                chains = {name for family, table, name in ruleset.chains if (family, table) == key}
                ruleset.chains[(*key, it["chain"])] += rules_of(tables[key], it, chains)
            elif kind == "chain" and "hook" in it and not tables[key].is_dormant:
                hooks.append((HOOKS.get(it["hook"], ("", 0))[1], it["prio"], it))
        for _, _, it in sorted(hooks, key=lambda it: it[:2]):
            add_hook(ruleset, it)
    except (KeyError, TypeError, ValueError, AttributeError):
        raise Wrong("the listing isn't whole: it has an object of no known form") from None
    return ruleset


def take_declared(ruleset, tables, own, kind, it):
    """Takes a table, a chain, or a set with its elements."""
    if kind == "table":
        tables[it["family"], it["name"]] = Table({"ip": 4, "ip6": 6}.get(it["family"]), own, is_dormant(ruleset, it))
    elif kind == "chain":
        ruleset.chains[it["family"], it["table"], it["name"]] = []
    elif kind in ("set", "map"):
        tables[it["family"], it["table"]].sets[it["name"]] = it.get("elem", [])
        if "timeout" in it.get("flags", []) or "dynamic" in it.get("flags", []):
            ruleset.tell("note", f"{kind} {shown(it['name'])}", "", "its elements are those of the listing, and may change")


def add_hook(ruleset, it):
    key = it["family"], it["table"], it["name"]
    direction, base = HOOKS.get(it["hook"], ("", 0))[0], Base(key, it.get("policy", "accept") == "accept", f"chain {' '.join(map(shown, key))}, its policy")
    if it["family"] in ("arp", "bridge") or it["hook"] == "forward":
        ruleset.set_aside(base, "", is_forward=True)
    elif direction and it["family"] in ("ip", "ip6", "inet") and it.get("type") in ("filter", "route"):
        if it["prio"] <= CONNTRACK and it["hook"] in ("prerouting", "output"):
            leave_states_out(ruleset, key)
        families = {"ip": (4,), "ip6": (6,)}.get(it["family"], (4, 6))
        ruleset.add_base(direction, families, base, is_judged=it["hook"] in ("input", "output"))
    else:
        ruleset.set_aside(base, f"a chain of type {shown(it.get('type'))} at the hook {shown(it['hook'])}")


def leave_states_out(ruleset, key):
    """No rule that a chain comes to before conntrack has a form where it asks for states."""
    seen = set()
    list(ruleset.reached(key, seen))
    for it in seen & set(ruleset.chains):
        ruleset.chains[it] = [rule if rule.states == STATES else rule._replace(reason=rule.reason or "conntrack comes behind chains of this priority")
                              for rule in ruleset.chains[it]]
