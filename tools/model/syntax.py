"""Paths, conditions, attributes and use trees as they are handed in."""
import json

RESERVED = set(
    "as break const continue else enum extern false fn for if impl in let loop match mod move mut pub ref return static struct trait"
    " true type unsafe use where while abstract become box do final macro override priv typeof unsized virtual yield async await dyn"
    " try gen".split()
)


dump = json.JSONEncoder(separators=(",", ":"), sort_keys=True, ensure_ascii=False).encode


def parse_path(text):
    """The kind of a path ("plain", "abs", "crate", a number of `super`s, or ("of", crate)) and its names."""
    if text.startswith("::"):
        return "abs", [name for name in text[2:].split("::") if name]
    parts = text.split("::") if text else []
    if not parts:
        return "plain", []
    if parts[0] == "crate":
        return "crate", parts[1:]
    if parts[0].startswith("$"):
        return ("of", int(parts[0][1:])), parts[1:]
    if parts[0] in ("self", "super"):
        up, rest = int(parts[0] == "super"), parts[1:]
        while rest and rest[0] == "super":
            up, rest = up + 1, rest[1:]
        return up, rest
    return "plain", parts


def print_name(name):
    """A name as a dump has it, under the latest edition."""
    return "r#" + name if name in RESERVED else name


def print_path(path):
    kind, names = path
    if isinstance(kind, tuple):
        return "::".join(["$%d" % kind[1]] + names)
    if kind == "abs":
        return "::" + "::".join(names)
    if kind == "plain":
        return "::".join(names)
    head = ["crate"] if kind == "crate" else ["super"] * kind or ["self"]
    return "::".join(head + names)


def holds(condition, options):
    """Whether a condition holds; None where a part of it is invalid."""
    if condition is None or isinstance(condition, bool):
        return condition
    if isinstance(condition, str) or "key" in condition:
        return dump(condition) in options
    form = next(form for form in ("all", "any", "not") if form in condition)
    parts = [holds(part, options) for part in (condition[form] if form != "not" else [condition["not"]])]
    if None in parts:
        return None
    return all(parts) if form == "all" else any(parts) if form == "any" else not parts[0]


def print_condition(condition):
    if condition is None:
        return "invalid"
    if isinstance(condition, bool):
        return "true" if condition else "false"
    if isinstance(condition, str):
        return condition
    if "key" in condition:
        return '%s = "%s"' % (condition["key"], condition["value"])
    form = next(form for form in ("all", "any", "not") if form in condition)
    parts = condition[form] if form != "not" else [condition["not"]]
    return "%s(%s)" % (form, ", ".join(print_condition(part) for part in parts))


def plain_condition(condition):
    """A condition without what isn't looked at."""
    if not isinstance(condition, dict):
        return condition
    if "key" in condition:
        return {"key": condition["key"], "value": condition["value"]}
    form = next(form for form in ("all", "any", "not") if form in condition)
    return {form: plain_condition(condition["not"]) if form == "not" else [plain_condition(part) for part in condition[form]]}


def plain_attribute(attr):
    """An attribute without what isn't looked at: two that are alike are one value."""
    path = attr["path"]
    if path in ("cfg", "cfg_attr"):
        inner = [plain_attribute(inner) for inner in attr["attrs"]] if path == "cfg_attr" else None
        return [path, plain_condition(attr["cfg"]), inner]
    if "derive" in attr:
        return [path, attr["derive"], attr.get("helpers", [])]
    form = next((form for form in ("literal", "paths", "tokens") if form in attr), None)
    texts = None if form is None else attr[form] if form != "paths" else [parse_path(inner) for inner in attr["paths"]]
    return [parse_path(path), form, texts]


def count(attrs):
    """How many attributes there are, with those that a `cfg_attr` holds."""
    return sum(1 + count(attr["attrs"] if attr["path"] == "cfg_attr" else []) for attr in attrs)


def collect(attrs, options, number=0):
    """The attributes that are kept, each with its number, and the first condition that doesn't hold, as a list of it or of nothing."""
    kept = []
    for attr in attrs:
        if "cfg" not in attr:
            kept.append({**attr, "number": number})
        elif attr["path"] == "cfg":
            if holds(attr["cfg"], options) is False:
                return kept, [attr["cfg"]]
        elif holds(attr["cfg"], options) is not False:
            inner, false = collect(attr["attrs"], options, number + 1)
            kept += inner
            if false:
                return kept, false
        number += count([attr])
    return kept, []


def kept_attributes(attrs, options):
    """What `collect` gives, without what isn't looked at."""
    kept, false = collect(attrs, options)
    return [[attr["number"], plain_attribute(attr)] for attr in kept], [plain_condition(condition) for condition in false]


def leaves(tree):
    """The imports of a use tree: place, path, kind, alias."""
    found, count = [], [0]

    def join(prefix, path):
        kind, names = path
        if prefix is None:
            return path, "plain"
        if kind == "plain":
            return (prefix[0], prefix[1] + names), "plain"
        if kind == 0 and not names:
            return prefix, "types"
        # behind a prefix of `super`s alone, further ones count, to 255 levels
        if isinstance(kind, int) and kind > 0 and isinstance(prefix[0], int) and not prefix[1] and prefix[0] + kind < 256:
            return (prefix[0] + kind, names), "plain"
        return None

    def walk(tree, prefix):
        place = count[0]
        count[0] += 1
        if "single" in tree:
            joined = join(prefix, parse_path(tree["single"]))
            if joined:
                found.append((place, joined[0], joined[1], tree.get("as")))
        elif "glob" in tree:
            if tree["glob"] is None:
                if prefix is not None:
                    found.append((place, prefix, "glob", None))
                return
            joined = join(prefix, parse_path(tree["glob"]))
            if joined:
                found.append((place, joined[0], "glob", None))
        else:
            inner, reached = prefix, True
            if "path" in tree:
                joined = join(prefix, parse_path(tree["path"]))
                reached = joined is not None and joined[1] == "plain"
                inner = joined[0] if reached else None
            before = len(found)
            for part in tree["list"]:
                walk(part, inner)
            if not reached:
                del found[before:]

    walk(tree, None)
    return found
