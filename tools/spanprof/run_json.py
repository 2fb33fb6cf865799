"""What is known of a recorded run as JSON: the diagnosis, the account of the run, and what unrecorded runs took."""
import json

from spanprof.command import writing
from spanprof.recording import scale_of
from spanprof.time_breakdown import as_json


def run_json(answers, diagnosis, account, why):
    """Without an account it has the reason, where that is known."""
    head = answers.head
    return {**(diagnosis.json() if diagnosis else {}), "text": answers.name, "region": head.region,
            "threads": head.threads, "clock": head.clock, "unit": head.unit, "work": answers.work,
            "span": answers.span, "elapsed": head.elapsed, "account": as_json(account) if account else None,
            "no account": why or None, "scale": scale_of(answers.path)}


def write_json(path, reported):
    with writing(path, errors="replace") as file:
        json.dump(reported, file, indent=2)
        file.write("\n")
