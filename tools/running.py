"""Starts the commands of the gate, and ends them with it."""
import os
import signal
import subprocess

# The signals at which a script ends what it has started, and then itself.
SIGNALS = (signal.SIGINT, signal.SIGTERM, signal.SIGHUP)


class Interrupted(BaseException):
    """Such a signal has come."""


class Commands:
    """The commands that run."""

    def __init__(self):
        # Those that run, and the processor seconds of each that has ended.
        self.running, self.took = set(), {}
        self.starting, self.came = False, None
        for it in SIGNALS:
            # (what whoever started the script wants to have ignored stays so)
            if signal.getsignal(it) != signal.SIG_IGN:
                signal.signal(it, self.interrupt)

    def interrupt(self, number, _):
        """Notes a signal, and is deaf to others from then on."""
        for it in SIGNALS:
            signal.signal(it, signal.SIG_IGN)
        self.came = number
        if not self.starting:
            raise Interrupted

    def start(self, words, **options):
        """Starts a command. Signals that were ignored, as HUP under nohup, are not ignored there:
        tests of scripts send them."""
        self.starting = True
        try:
            words = ["env", "--default-signal=INT,TERM,HUP", *words]
            given = {"stdin": subprocess.DEVNULL, "encoding": "utf-8", "errors": "replace"}
            process = subprocess.Popen(words, **{**given, **options})
            self.running.add(process)
        finally:
            self.starting = False
        if self.came:
            raise Interrupted
        return process

    def has_ended(self, process, how=os.WNOHANG):
        """Whether a command has ended. Its processor seconds, and those of all that it has waited
        for, are noted then."""
        if process not in self.took:
            pid, status, used = os.wait4(process.pid, how)
            if not pid:
                return False
            process.returncode = (os.WEXITSTATUS(status) if os.WIFEXITED(status)
                                  else -os.WTERMSIG(status))
            self.took[process] = used.ru_utime + used.ru_stime
        return True

    def end(self, process):
        """Waits for a command, and answers its status as a shell has it."""
        self.has_ended(process, 0)
        self.running.discard(process)
        status = process.returncode
        return status if status >= 0 else 128 - status

    def end_all(self):
        """Ends all that still runs, which then ends what it has started."""
        for it in self.running:
            it.terminate()
        for it in self.running:
            it.wait()

    def end_as_interrupted(self):
        """Ends this process as the signal would have ended it, if one has come."""
        if self.came:
            signal.signal(self.came, signal.SIG_DFL)
            signal.raise_signal(self.came)
