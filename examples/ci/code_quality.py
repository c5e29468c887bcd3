"""Reads what record --json writes, and writes GitLab's code quality report: an issue for each report that has a place."""

import json
import sys

TITLES = {"reversal": "lock order reversal", "duplicate": "two locks of one type", "circle": "threads that wait for one another",
          "self": "a thread that waits for itself", "error": "an error in the use of a lock"}


def place(report):
    """The place that the report is of: that of the request, else the first one that is known."""
    for each in [report["asked"], report["error"], *report["waits"], *report["held"]]:
        if each and each["file"]:
            return each
    return None


def issue(report):
    where = place(report)
    if report["silenced"] or report["kind"] not in TITLES or where is None:
        return None
    return {
        "description": "%s: %s" % (TITLES[report["kind"]], report["description"]),
        "check_name": report["kind"],
        "fingerprint": report["fingerprint"],
        "severity": "major" if report["counts"] else "info",
        "location": {"path": where["file"], "lines": {"begin": where["line"]}},
    }


json.dump([each for each in map(issue, json.load(sys.stdin)["reports"]) if each], sys.stdout, indent=1)
