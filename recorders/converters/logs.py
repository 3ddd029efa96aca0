"""Logs of servers and proxies that have not what a judgement needs: two stamps of each call, its key, and the value that it read or wrote."""
import re

INSTEAD = "record the calls at the client, with a recorder of this folder"
# the name of a form, how a line of it begins, and why it does not serve
LOGS = (
    ("redis-monitor", rb'[0-9]+\.[0-9]{6} \[[0-9]+ [^\]]+\] "',
     "Redis's MONITOR prints a call once, when the server runs it: it has one stamp, and no answer"),
    ("redis-slowlog", rb" *1\) 1\) \(integer\) [0-9]",
     "Redis's SLOWLOG has a start in whole seconds, no answer, cut arguments, and only the calls that were slow in the server"),
    ("memcached-watch", rb"ts=[0-9]+\.[0-9]+ gid=[0-9]+ type=",
     "memcached's `watch` prints an event with one stamp and no value; its proxy's events have the time taken, but no value either"),
    ("twemproxy", rb"\[[0-9-]+ [0-9:.]+\] nc_\w+\.c:[0-9]+ ",
     "twemproxy logs how long a request took, its first key and the lengths of both sides, but no value"),
    ("mcrouter", None,
     "mcrouter logs no calls; its debug pipes carry them with stamps and values, in a form of its own: write what `mcpiper` shows as JSON lines"),
    ("envoy", None,
     "Envoy's Redis filter logs no single call; of an access log over HTTP in JSON, with %START_TIME%, %DURATION% and an ETag, make the form jsonl with --took"),
)


def why_not(name):
    """Returns why a log of this name can't be judged, and what to do instead."""
    return next(f"{why}; {'or ' if log in ('mcrouter', 'envoy') else ''}{INSTEAD}" for log, _, why in LOGS if log == name)


def recognized(lines):
    """Returns the name of the log that one of the first lines looks like, or None."""
    return next((name for name, begins, _ in LOGS if begins and any(re.match(begins, it) for it in lines)), None)
