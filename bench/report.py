"""What the bench says: a line for each rule, sums, and tables of several routers beside one another."""

import json

from verdicts import AS_RFC, BROKEN, DIFFERS, OPEN

SHORT = {AS_RFC: "as the RFC", OPEN: "open", DIFFERS: "**differs**", BROKEN: "not tried"}


def line(result, with_steps=False):
    """A rule with its verdict; where a router differs, the step and what came."""
    text = f"{result.verdict:<18} {result.section:<6} {result.name}"
    if result.verdict == AS_RFC and not with_steps:
        return text
    at = f" {result.step};" if result.step else ""
    return f"{text}: {result.says}{at} it came: {result.came}"


def sums(results):
    """How many have each verdict."""
    counts = {verdict: sum(one.verdict == verdict for one in results) for verdict in (AS_RFC, OPEN, DIFFERS, BROKEN)}
    return ", ".join(f"{number} {verdict}" for verdict, number in counts.items() if number or verdict in (AS_RFC, DIFFERS))


def written(results, version, date):
    """All results as JSON."""
    return json.dumps({"router": version, "date": date, "rules": [one.record() for one in results]}, indent=1) + "\n"


def compared(files):
    """A table in Markdown of files that were written so, a column for each."""
    told = [json.loads(path.read_text()) for path in files]
    by_name = [{rule["name"]: rule for rule in one["rules"]} for one in told]
    names = list(dict.fromkeys(name for rules in by_name for name in rules))
    heads = [one["router"] for one in told]
    rows = [f"| Rule | Section | {' | '.join(heads)} |", "|---" * (2 + len(told)) + "|"]
    for name in names:
        section = next(rules[name]["section"] for rules in by_name if name in rules)
        cells = [SHORT[rules[name]["verdict"]] if name in rules else "" for rules in by_name]
        rows.append(f"| `{name}` | {section} | {' | '.join(cells)} |")
    return "\n".join(rows) + "\n"
