"""A small client of wfserve: it starts the server as a child, writes a request and an empty line, and reads its entry."""

import json
import subprocess

# Whom a reply is for that changed nothing: the clerk who asked, whoever administers the policy, or whoever wrote the client.
WORDS = {
    "clerk": ("closed", "taken", "order", "role", "rule", "stranded", "not_held"),
    "administrator": ("retired", "full", "unsatisfiable", "no_user", "not_admin", "unknown")
    + ("already", "absent", "fixed", "last_admin", "strands"),
    "developer": ("no_flow", "no_case", "no_step", "bad"),
}
FOR = {word: whom for whom, words in WORDS.items() for word in words}


class Unmet(Exception):
    """A request that changed nothing; its arguments are the word, the rest of the reply, and who has to hear of it."""


class Ended(Exception):
    """The server has ended: its status and its last words. Whether the last request was served its transcript tells."""


class Server:
    """A server of its own. `keep` may be two binary files, one for the requests and one for the entries."""

    def __init__(self, policy, program="wfserve", options=(), keep=None):
        pipes = {"stdin": subprocess.PIPE, "stdout": subprocess.PIPE, "stderr": subprocess.PIPE}
        self.child = subprocess.Popen([program, "serve", policy, *options], bufsize=0, **pipes)
        self.entries, self.keep, self.line = open(self.child.stdout.fileno(), "rb", closefd=False), keep, 0

    def ask(self, do, tries=3, **keys):
        """The reply, as its word and the rest of it. What was overtaken or lacked memory is asked again."""
        for _ in range(tries):
            word, what = pair(self.exchange(json.dumps({"do": do, **keys}).encode() + b"\n\n"))
            if word == "denied":
                word, what = pair(what)
            if word in FOR:
                raise Unmet(word, what, FOR[word])
            if word not in ("again", "no_memory"):
                return word, what
        raise Unmet(word, what, "clerk" if word == "again" else "operator")

    def exchange(self, lines):
        try:
            if self.keep:  # (whoever relies on it has this synced before the server gets it)
                self.keep[0].write(lines)
            self.child.stdin.write(lines)
            entry = self.entries.readline()
        except BrokenPipeError:
            entry = b""
        if not entry.endswith(b"\n"):
            raise Ended(*self.close())
        if self.keep:
            self.keep[1].write(entry)
        told = json.loads(entry)
        assert told["line"] == self.line, "the entry answers another line"
        self.line += 2
        return told["reply"]

    def close(self):
        """Ends the input, waits, and tells the status and the last line on standard error."""
        self.child.stdin.close()
        said = self.child.stderr.read().decode().splitlines()
        return self.child.wait(), said[-1] if said else ""


def pair(reply):
    return (reply, None) if isinstance(reply, str) else next(iter(reply.items()))
