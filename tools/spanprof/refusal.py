"""What spanprof's error lines mean, for people: the line with a caret, the word meant, the range allowed, what helps.

spanprof tells the line of a fault and its kind. The token is found by asking it about shorter texts: it refuses a text
for the same fault as soon as the wrong token stands in it.
"""
import difflib
import re
from itertools import dropwhile, islice

TOKEN = re.compile(r"[A-Za-z0-9_]+|[^ \t\r\nA-Za-z0-9_]")
STATEMENTS = ("work", "task", "taskwait", "taskgroup", "for", "if", "final", "depend", "in", "out", "inout", "inoutset")
AT_LINE = re.compile(r"error: line (\d+): (\w+)")
DIVIDER = re.compile(r"---\r?\n?")
AT_EVENT = re.compile(r"error: event (\d+): (\w+)(?: (\d+))?")
CLOSEST = 0.6       # how alike a word has to be to one that is meant
LONGEST_SHOWN = 100
LONGEST_WORD = 31
MOST_ASKED = 1 << 22    # bytes of a text in which the wrong token is looked for
KINDS = {
    "TooLong": "the text has too many bytes: one of version 2 has 4,194,304 at most, and 4,000,000,000 lines where its "
               "loops are expanded",
    "BadHeader": "a text begins with `omptasks 1`, or `omptasks 2` where it has loops",
    "BadByte": "unexpected byte",
    "BadWord": "unexpected word",
    "BadNumber": "a cost is a whole number up to 1,000,000,000,000, an `if` or `final` 0 or 1, a bound at most "
                 "1,000,000",
    "Unclosed": "missing `}` for this `{`",
    "Unopened": "missing `{` for this `}`",
    "TooDeep": "at most 1,048,576 blocks inside each other, 64 in version 2",
    "TooManyItems": "a task has at most 65,536 depend items, and a text 4,294,967,294",
    "WorkTooLarge": "all costs together are at most 1,000,000,000,000,000; a larger unit of time helps",
    "TooManyTurns": "all loops together have at most 4,000,000,000 turns"}
COST = "a cost is a whole number up to 1,000,000,000,000"
NUMBERS = (  # what stands before a number, and which there may be
    (re.compile(r"\bwork\s*$"), COST),
    (re.compile(r"\b(if|final)\s*\(\s*$"), "an `if` or `final` has 0 or 1"),
    (re.compile(r"\bfor\s+\w+\s+(\w+\s+)?$"), "a bound is a whole number up to 1,000,000"),
    (re.compile(r"\[[^]]*$"), "an index is from -1,000,000 to 1,000,000"))
OF_VERSION_2 = "[]+-"
EVENTS = {
    "UnknownWorker": "workers are 0 to 63",
    "UnknownSegment": "the program has no such segment",
    "WorkerBusy": "this worker still runs another segment",
    "AlreadyStarted": "the segment was started before",
    "NotReady": "its predecessor, segment %s, has not finished",
    "NotRunning": "this worker does not run that segment"}
WHOLE = {
    "input too long": "a line has at most 4,000,000,000 bytes",
    "BadForm": "after the line `---` a replay has `start WORKER SEGMENT` and `finish WORKER SEGMENT`, a certificate "
               "`end`, `start`s and a `chain`",
    "ThreadCount": "a number of threads is 1 to 1,024",
    "WorkerCount": "a number of workers is 1 to 64",
    "CostTooLarge": "a cost is at most 1,000,000,000,000,000",
    "WorkTooLarge": "with this cost the sum of all costs is above 1,000,000,000,000,000",
    "wrong words": "this spanprof has no such command or option; it and these tools may be of different versions",
    "out of memory": "use more memory or a smaller program; `ulimit -v` shows a limit"}


def tokens(line):
    """The tokens of a line, without its comment."""
    return list(TOKEN.finditer(line.partition("#")[0]))


def wrong_token(lines, number, answer, ask):
    """The first token of that line with which the text is refused with this answer; none where that is not found."""
    found = tokens(lines[number - 1])
    before = "".join(line + "\n" for line in lines[:number - 1])

    def is_refused(count):
        return ask(before + lines[number - 1][:found[count].end()] + "\n").strip() == answer

    if not found or not is_refused(len(found) - 1):
        return None
    low, high = 0, len(found) - 1
    while low < high:
        middle = (low + high) // 2
        low, high = (low, middle) if is_refused(middle) else (middle + 1, high)
    return found[low]


def open_brace(lines, number):
    """The last `{` of that line that nothing closes, in it or behind."""
    closed = 0
    for place in range(len(lines), number - 1, -1):
        for token in reversed(tokens(lines[place - 1])):
            if token.group() == "}":
                closed += 1
            elif token.group() == "{" and closed:
                closed -= 1
            elif token.group() == "{" and place == number:
                return token
    return None


def meant(word):
    """That the word is too long, or a hint at the word of the language that is most like this one."""
    if len(word) > LONGEST_WORD:
        return ", a word of %d bytes; the most is %d" % (len(word), LONGEST_WORD)
    alike = difflib.get_close_matches(word, STATEMENTS, n=1, cutoff=CLOSEST)
    return "; did you mean `%s`?" % alike[0] if alike and alike[0] != word else ""


def picture(line, number, token):
    """The line with a caret below the token, or below its beginning; of a long line what stands around the token."""
    begin, end = token.span() if token else (len(line) - len(line.lstrip()),) * 2
    left = max(0, begin - LONGEST_SHOWN // 2)
    shown = line[left:left + LONGEST_SHOWN].replace("\t", " ")
    shown = "".join(sign if sign.isprintable() else "?" for sign in shown)
    head = "%5d | " % number
    mark = "^" + "~" * max(0, min(end, left + LONGEST_SHOWN) - begin - 1)
    return ["%s%s" % (head, shown), " " * (len(head) - 2) + "| " + " " * (begin - left) + mark]


def of_byte(line, place):
    """What is wrong with a character that begins no word."""
    sign, before = line[place], line[:place]
    if DIVIDER.fullmatch(line):
        return "the text ends before `---`; what follows belongs to a replay or a certificate"
    if re.search("[\0\ufffd]", line.partition("#")[0]):
        return "not a program text: it has other bytes than a text"
    if sign == "\ufeff":
        return "a text begins without a byte order mark"
    if re.search(r"\bwork\s+[0-9]*$", before) and sign in ".-+":
        return COST + ", without a sign or a point"
    if sign in OF_VERSION_2:
        return "`%s` belongs to version 2 of the texts, `omptasks 2`" % sign
    shown = "`%s`" % sign if sign.isascii() and sign.isprintable() else "U+%04X" % ord(sign)
    return "unexpected %s; blanks are space, tab, CR and LF" % shown


def of_number(line, token):
    """Which numbers there may be in this place; none where that is not known."""
    if not token.group().isdigit():
        return "`%s` is not a number, and a word does not begin with a digit" % token.group()
    return next((range_allowed for before, range_allowed in NUMBERS if before.search(line[:token.start()])), None)


def words_at(kind, line, token, general):
    """What is wrong at a token that was found."""
    if kind == "BadWord":
        return "unexpected `%s`%s" % (token.group(), meant(token.group()))
    if kind == "BadByte":
        return of_byte(line, token.start())
    if kind == "BadNumber":
        return of_number(line, token) or general
    if kind == "BadHeader" and token.group().isdigit():
        return "there are versions 1 and 2: " + general
    return general


def at_line(name, text, answer, ask, kinds):
    number, kind = AT_LINE.match(answer).groups()
    lines, number = text.split("\n"), int(number)
    words = kinds.get(kind, "")
    if kind == "BadHeader" and not any(tokens(line) for line in lines):
        return "%s: the text is empty; %s" % (name, words.replace("a text", "one", 1))
    first = next(filter(None, map(tokens, lines)), [])[:2]      # a byte order mark may stand before the word
    if kind == "BadByte" and "omptasks" not in (token.group() for token in first):
        return "%s: not a program text, which begins with `omptasks 1`; a recording is a folder, NAME.spanprof" % name
    if not 1 <= number <= len(lines):
        return "%s: %s" % (name, words or answer)
    token = None
    if len(text) <= MOST_ASKED:
        token = open_brace(lines, number) if kind == "Unclosed" else wrong_token(lines, number, answer, ask)
    if token:
        words = words_at(kind, lines[number - 1], token, words)
    elif kind in ("BadWord", "BadHeader") and number >= len(lines) - 1:
        words = "the text ends too early"
    place = "%d:%d" % (number, token.start() + 1) if token else "%d" % number
    return "\n".join(["%s:%s: %s: %s" % (name, place, kind, words)] + picture(lines[number - 1], number, token))


def of_event(lines, answer):
    """The event that is refused, and why; empty for another answer. The lines are those of the document."""
    found = AT_EVENT.match(answer)
    if not found:
        return ""
    number, kind, other = found.groups()
    behind = islice(dropwhile(lambda line: not DIVIDER.fullmatch(line), lines), 1, None)
    words = islice((word for line in behind for word in line.split()), 3 * int(number), 3 * int(number) + 3)
    said = EVENTS.get(kind, kind)
    return "`%s`: %s" % (" ".join(words), said % other if "%s" in said else said)


def unknown_segment(command, segments):
    """Which of the changes names a segment that there is not."""
    named = [word.partition("=")[0] for word in command[1:]]
    wrong = [word for word in named if word.isdigit() and int(word) >= segments]
    return "there is no segment %s; segments are 0 to %d, and `spanprof slack` lists them" % (
        wrong[0] if wrong else "of this number", segments - 1)


def of_whole(command, text, answer, ask):
    """What helps against a line that names no place in the text; empty for another answer."""
    kind = answer.removeprefix("error: ")
    if kind == "UnknownSegment" and command[:1] == ["whatif"]:
        counted = re.search(r"(?m)^segments (\d+)", ask(["span"], text))
        return unknown_segment(command, int(counted[1])) if counted else ""
    return WHOLE.get(kind, "")


def explained(name, command, text, answer, ask, kinds=None):
    """The words for people. `ask(words, text)` is what spanprof prints, whatever its exit status, and `kinds` has the
    words of other limits."""
    answer = answer.strip()
    if AT_LINE.match(answer):
        return at_line(name, text.partition("\n---")[0], answer, lambda shorter: ask(["span"], shorter),
                       {**KINDS, **(kinds or {})})
    if AT_EVENT.match(answer):
        return "%s: %s" % (name, of_event(text.split("\n"), answer))
    more = of_whole(command, text, answer, ask)
    return "%s: %s" % (name, more) if more else ""
