"""Gives each character of a text its scopes by a TextMate grammar, as far as the grammars of editors/vscode go, for editor_texts.py.

A rule has `match`, or `begin` and `end`, or `include`. It reads line by line, as editors do. Patterns are those of Python's `re`,
which an editor's engine reads in the same way: the grammars have no classes of Unicode and no lookbehind of several lengths.
"""
import json
import re

LINE = re.compile(r"[^\r\n]*(?:\r\n|\r|\n)|[^\r\n]+")
# How many rules may stand around a place that does not move, before the grammar counts as endless.
MOST = 100


class Endless(Exception):
    """A grammar that stays at a place."""


class Grammar:
    def __init__(self, path):
        self.rules = json.loads(path.read_text(encoding="utf8"))
        self.scope = self.rules["scopeName"]
        self.compiled = {}

    def pattern(self, text):
        if text not in self.compiled:
            self.compiled[text] = re.compile(text)
        return self.compiled[text]

    def flat(self, patterns):
        """The rules that have a pattern, in their order, with those of what is included."""
        for rule in patterns:
            if "include" in rule:
                name = rule["include"]
                yield from self.flat([self.rules if name == "$self" else self.rules["repository"][name[1:]]])
            elif "match" in rule or "begin" in rule:
                yield rule
            else:
                yield from self.flat(rule["patterns"])

    def scopes(self, text):
        """The scopes of each character of a text, from the outer to the inner one; without the scope of the whole text."""
        found, open_rules = [], []
        for line in LINE.findall(text):
            found += Line(self, line, open_rules).scopes()
        return found


def names(*rules_and_keys):
    return [rule[key] for rule, key in rules_and_keys if key in rule]


class Line:
    """A line, and the rules that are open in it: they go on in the next line."""

    def __init__(self, grammar, line, open_rules):
        self.grammar, self.line, self.open = grammar, line, open_rules
        self.found = [[] for _ in line]

    def around(self):
        return [name for rule in self.open for name in names((rule, "name"), (rule, "contentName"))]

    def put(self, begin, end, scopes):
        for at in range(begin, end):
            self.found[at] = list(scopes)

    def put_match(self, match, scopes, captures):
        """Puts the scopes of a match, and inside of it those of its groups."""
        self.put(match.start(), match.end(), scopes)
        for group, capture in sorted(captures.items(), key=lambda it: int(it[0])):
            if match.start(int(group)) >= 0:
                for at in range(match.start(int(group)), match.end(int(group))):
                    self.found[at].append(capture["name"])

    def next_match(self, at):
        """The first match from a place on, with its rule; None in the place of the rule if it ends the innermost one. An end goes
        before a rule, and a rule before a later one."""
        rules = self.open[-1].get("patterns", []) if self.open else self.grammar.rules["patterns"]
        tried = [(None, self.open[-1]["end"])] if self.open else []
        tried += [(rule, rule.get("match") or rule["begin"]) for rule in self.grammar.flat(rules)]
        matches = [(self.grammar.pattern(text).search(self.line, at), rule) for rule, text in tried]
        return min(((match, rule) for match, rule in matches if match), key=lambda it: it[0].start(), default=(None, None))

    def take(self, match, rule):
        if rule is None:
            ended = self.open.pop()
            self.put_match(match, self.around() + names((ended, "name")), ended.get("endCaptures", {}))
        elif "match" in rule:
            self.put_match(match, self.around() + names((rule, "name")), rule.get("captures", {}))
        else:
            self.put_match(match, self.around() + names((rule, "name")), rule.get("beginCaptures", {}))
            self.open.append(rule)

    def scopes(self):
        at = stays = 0
        while True:
            match, rule = self.next_match(at)
            if not match:
                self.put(at, len(self.line), self.around())
                return self.found
            stays = stays + 1 if match.end() == at else 0
            if stays > MOST:
                raise Endless(f"{self.grammar.scope} stays at {self.line[at:]!r}")
            self.put(at, match.start(), self.around())
            self.take(match, rule)
            at = match.end()
