"""Texts with damage at each byte: cut there, or with another byte there."""
OTHER_BYTES = (0, 10, 32, ord("0"), ord("9"), ord("a"), ord("}"), 255)
PLAIN = b"omptasks 1\nwork 5 task if(0) depend(in: a, b) { work 3 } work 2 taskwait taskgroup { task { } } work 1\n"
LOOPS = b"omptasks 2\nfor i 1 3 { task depend(in: x[i-1]) depend(out: x[i]) { work 2 } }\n"
EVENTS = b"start 0 0 finish 0 0 start 0 2 finish 0 2 start 1 1 finish 1 1 start 0 3 finish 0 3\n"


def damaged(text):
    for length in range(len(text)):
        yield text[:length]
    for place in range(len(text)):
        for byte in OTHER_BYTES:
            if text[place] != byte:
                yield text[:place] + bytes([byte]) + text[place + 1:]
