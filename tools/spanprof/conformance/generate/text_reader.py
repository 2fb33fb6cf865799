"""Reads a program's text into a tree. spanprof alone says what is a program; this reads only what it has accepted."""
import re

from spanprof.command import Fault
from spanprof.conformance.emit.forms import GROUP_FORMS, LOOP_FORMS
from spanprof.conformance.generate.program import KINDS, Group, Index, Item, Loop, Task, Wait, Work
from spanprof.program_text import lines_of

CLAUSE = re.compile(r"untied|mergeable|priority\([0-9]+\)|taskwait|detach|depobj|iterator|mutexinoutset|copied|target|"
                    r"cancels")
OF_TASKLOOP = re.compile(r"(num_tasks|grainsize)\((strict:)?[1-9][0-9]*\)|any|reduction")


class Unreadable(Fault):
    pass


class Reader:
    def __init__(self, text):
        self.tokens, self.at = [], 0
        for words, comment in lines_of(text):
            self.tokens += [(word, "") for word in words[:-1]] + [(word, comment) for word in words[-1:]]

    def peek(self):
        return self.tokens[self.at][0] if self.at < len(self.tokens) else ""

    def take(self, *wanted):
        """The next token, which has to be one of those that are wanted, if any are."""
        token = self.peek()
        if not token or wanted and token not in wanted:
            raise Unreadable(f"{token!r} in place of {' or '.join(wanted) or 'a token'}")
        self.at += 1
        return token

    def skips(self, token):
        """Whether the next token is this one, which is then taken."""
        found = self.peek() == token
        self.at += found
        return found

    def number(self):
        return int(self.take())

    def program(self):
        self.take("omptasks")
        self.take("1", "2")
        body = self.statements()
        if self.peek():
            raise Unreadable(f"{self.peek()!r} after the end")
        return body

    def statements(self):
        body = []
        while self.peek() and self.peek() != "}":
            body.append(self.statement())
        return tuple(body)

    def block(self):
        """How the statement is written in C, by a comment `#: WORD ..` behind its `{`, and its body."""
        self.take("{")
        comment = self.tokens[self.at - 1][1]
        body = self.statements()
        self.take("}")
        return tuple(comment[1:].split()) if comment.startswith(":") else (), body

    def statement(self):
        word = self.take("work", "task", "taskwait", "taskgroup", "for")
        if word == "work":
            return Work(self.number())
        if word == "taskwait":
            return Wait()
        if word == "taskgroup":
            words, body = self.block()
            return Group(body, form_in(words, GROUP_FORMS))
        if word == "for":
            var, first, last = self.take(), self.number(), self.number()
            words, body = self.block()
            return Loop(var, first, last, body, form_in(words, LOOP_FORMS))
        return self.task()

    def task(self):
        undeferred = final = False
        items = []
        while self.peek() != "{":
            clause = self.take("if", "final", "depend")
            self.take("(")
            if clause == "if":
                undeferred = self.number() == 0
            elif clause == "final":
                final = self.number() == 1
            else:
                items += self.items()
            self.take(")")
        clauses, body = self.block()
        for clause in clauses:
            if not CLAUSE.fullmatch(clause):
                raise Unreadable(f"{clause!r} after #:")
        return Task(undeferred, final, tuple(items), body, clauses)

    def items(self):
        kind = self.take(*KINDS)
        self.take(":")
        items = [self.item(kind)]
        while self.skips(","):
            items.append(self.item(kind))
        return items

    def item(self, kind):
        name = self.take()
        if not self.skips("["):
            return Item(kind, name)
        index = self.index()
        self.take("]")
        return Item(kind, name, index)

    def index(self):
        if self.skips("-"):
            return Index(None, -self.number())
        if self.peek().isdigit():
            return Index(None, self.number())
        var = self.take()
        if self.skips("+"):
            return Index(var, self.number())
        return Index(var, -self.number() if self.skips("-") else 0)


def form_in(words, forms):
    """The form that the words after `#:` name, with its clause: the plain one if there are none."""
    if not words:
        return forms[0]
    is_known = words[0] in forms and len(words) == 1
    if not is_known and not (words[0] == "taskloop" and len(words) == 2 and OF_TASKLOOP.fullmatch(words[1])):
        raise Unreadable(f"{' '.join(words)!r} after #:")
    return " ".join(words)


def read_program(text):
    """The program of a text."""
    return Reader(text).program()
