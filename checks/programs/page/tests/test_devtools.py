"""The client of the DevTools protocol, against messages that a test writes: no browser is needed."""
import json
import os
import unittest

from devtools import Page, Pipe, Refused, Session


class FakePage(Page):
    def __init__(self, events):
        self.session = Session(None)
        self.session.events = events


class Messages(unittest.TestCase):
    def setUp(self):
        self.read_sent, to_browser = os.pipe()
        from_browser, self.write = os.pipe()
        self.pipe = Pipe(to_browser, from_browser, seconds=1)
        for end in (self.read_sent, to_browser, from_browser, self.write):
            self.addCleanup(self.close, end)

    def close(self, end):
        try:
            os.close(end)
        except OSError:
            pass

    def answers(self, *messages):
        os.write(self.write, b"".join(json.dumps(message).encode() + b"\0" for message in messages))

    def test_a_call_is_answered_by_its_number(self):
        self.answers({"method": "Page.loaded"}, {"id": 1, "sessionId": "other", "result": {}},
                     {"id": 1, "sessionId": "s", "result": {"value": 3}})
        session = Session(self.pipe, "s")
        self.assertEqual(session.call("Runtime.evaluate", expression="3"), {"value": 3})
        self.assertEqual(len(session.events), 2)
        self.assertEqual(json.loads(os.read(self.read_sent, 1000).rstrip(b"\0")), {
            "id": 1, "method": "Runtime.evaluate", "params": {"expression": "3"}, "sessionId": "s"})

    def test_a_refusal(self):
        self.answers({"id": 1, "error": {"message": "no such method"}})
        with self.assertRaisesRegex(Refused, "X.y: no such method"):
            Session(self.pipe).call("X.y")

    def test_a_message_in_pieces(self):
        os.write(self.write, b'{"id": ')
        os.write(self.write, b'1, "result": {}}\0')
        self.assertEqual(Session(self.pipe).call("X.y"), {})

    def test_silence_and_an_end_are_reported(self):
        with self.assertRaisesRegex(Refused, "no answer for 1 seconds"):
            self.pipe.receive()
        os.close(self.write)
        with self.assertRaisesRegex(Refused, "the browser went away"):
            self.pipe.receive()


class Complaints(unittest.TestCase):
    def reported(self, method, **parameters):
        return FakePage([{"method": method, "params": parameters}]).complaints()

    def test_errors_and_fetches(self):
        thrown = {"exception": {"description": "x"}}
        self.assertEqual(self.reported("Runtime.exceptionThrown", exceptionDetails=thrown), ["x"])
        self.assertEqual(self.reported("Log.entryAdded", entry={"level": "error", "text": "no file"}), ["log: no file"])
        self.assertEqual(self.reported("Network.requestWillBeSent", type="Image", request={"url": "u"}), ["fetched: u"])
        self.assertTrue(self.reported("Runtime.consoleAPICalled", type="error", args=[]))

    def test_what_is_no_fault(self):
        self.assertEqual(self.reported("Network.requestWillBeSent", type="Document", request={"url": "u"}), [])
        self.assertEqual(self.reported("Runtime.consoleAPICalled", type="log", args=[]), [])
