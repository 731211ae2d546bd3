"""Commands that don't outlive the program that runs them."""
import signal
import subprocess
from threading import Timer

# How long a command goes on after a line that ends it: more of the same may follow.
SECONDS_TO_END = 3


class Commands:
    """The commands that run."""

    running = set()
    stopped = False

    @classmethod
    def run(cls, words, folder, hears=len, ends=lambda line: False):
        """Runs a command in a folder, and returns its status and its lines. Each line is heard as it comes. The command is ended soon after a line
        that ends it."""
        if cls.stopped:
            raise SystemExit(143)
        how = {"stdin": subprocess.DEVNULL, "stdout": subprocess.PIPE, "stderr": subprocess.STDOUT, "errors": "replace"}
        lines, ending = [], None
        with subprocess.Popen(words, cwd=folder, **how) as command:
            cls.running.add(command)
            try:
                for line in command.stdout:
                    lines.append(line.rstrip("\n"))
                    hears(lines[-1])
                    if ending is None and ends(lines[-1]):
                        ending = Timer(SECONDS_TO_END, command.terminate)
                        ending.start()
            finally:
                cls.running.discard(command)
                if ending:
                    ending.cancel()
        while lines and not lines[-1]:
            lines.pop()
        return command.returncode, lines or [""]

    @classmethod
    def stop(cls, *_):
        """Ends all of them, and then this program, which clears its folders on its way out; none begins after that."""
        cls.stopped = True
        cls.end()
        raise SystemExit(143)

    @classmethod
    def end(cls):
        """Ends all that run now."""
        for command in list(cls.running):
            command.terminate()

    @classmethod
    def stop_with_this(cls):
        """Has them end where this program is told to."""
        signal.signal(signal.SIGTERM, cls.stop)
        signal.signal(signal.SIGINT, cls.stop)
