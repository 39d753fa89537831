"""A page that runs in node without a browser, by `page_in_node.js`: expressions of its scripts are asked for."""
import json
import os
import subprocess
import time

from seat_checks import SECONDS, Wrong

SCRIPT = f"{os.path.dirname(os.path.abspath(__file__))}/page_in_node.js"


class NodePage:
    """A page that is open. It is closed when its `with` ends."""

    def __init__(self, path):
        self.run = subprocess.Popen(["node", SCRIPT, path], stdin=subprocess.PIPE, stdout=subprocess.PIPE, text=True)

    def value(self, expression):
        """The value of an expression of the page's scripts, awaited."""
        self.run.stdin.write(f"{expression}\n")
        self.run.stdin.flush()
        answer = json.loads(self.run.stdout.readline() or '{"fault": "the page has ended"}')
        if "fault" in answer:
            raise Wrong(f"{expression}: {answer['fault']}")
        return answer.get("value")

    def until(self, expression, wanted):
        """Waits until an expression has a value."""
        end = time.monotonic() + SECONDS
        while (found := self.value(expression)) != wanted:
            if time.monotonic() > end:
                raise Wrong(f"{expression}: {wanted!r} was wanted, and {found!r} found")
            time.sleep(0.02)

    def lines(self, section):
        """The lines of a list beside the picture."""
        return self.value(f"element('{section}').querySelector('ul').children.map((item) => item.children[0].textContent)")

    def __enter__(self):
        return self

    def __exit__(self, *what):
        self.run.kill()
        self.run.wait()
        self.run.stdin.close()
        self.run.stdout.close()
