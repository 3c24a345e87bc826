"""Parts of nft's JSON, much as nft writes them as text."""
import json

TEXTS = {"payload": "{protocol} {field}", "meta": "meta {key}", "ct": "ct {key}", "prefix": "{addr}/{len}", "elem": "{val}",
         "jump": "jump {target}", "goto": "goto {target}"}


def compact(value):
    return json.dumps(value, separators=(",", ":"))


def said(it):
    """A part of a rule, much as nft writes it."""
    if isinstance(it, list):
        return ",".join(map(said, it))
    if not isinstance(it, dict) or len(it) != 1:
        return it if isinstance(it, str) else compact(it)
    (word, given), = it.items()
    parts = given if isinstance(given, list) else []
    if word == "match":
        op = given["op"] if given["op"] not in ("==", "in") else ""
        return " ".join(filter(None, (said(given["left"]), op, said(given["right"]))))
    if word == "vmap":
        data = given["data"]
        told = data if isinstance(data, str) else f"{{ {', '.join(f'{said(key)} : {said(end)}' for key, end in data['set'])} }}"
        return f"{said(given['key'])} vmap {told}"
    if word == "set" and parts:
        return f"{{ {', '.join(map(said, parts))} }}"
    if word in ("&", "|", "concat") and parts:
        return {"&": " & ", "|": "|", "concat": " . "}[word].join(map(said, parts))
    if word == "range" and len(parts) == 2:
        return f"{said(parts[0])}-{said(parts[1])}"
    if given is None or word in ("counter", "log", "reject"):
        return word
    return TEXTS[word].format(**given) if word in TEXTS else f"{word} {compact(given)}"


def text_of_rule(expressions):
    try:
        return " ".join(map(said, expressions))
    except (KeyError, TypeError, ValueError, AttributeError):
        return compact(expressions)

