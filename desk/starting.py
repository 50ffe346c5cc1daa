"""Starts a program with pipes, or a file, in the place of its input and output. The module subprocess does more than that, and takes as long to
import as a day takes to settle."""
import contextlib
import os
import signal

# what Python has set for itself, and no other program expects
AS_BEFORE = (signal.SIGPIPE, signal.SIGXFSZ)


class Started:
    """A program that was started. What it prints comes by a pipe, and so goes its input where no descriptor is given."""

    def __init__(self, command, into=None):
        self.stdin, self.returncode, ours = None, None, []
        _keep_open_files()
        if into is None:
            into, feeding = os.pipe()
            self.stdin = open(feeding, "wb", buffering=0)
            ours.append(into)
        printed, out = os.pipe()
        self.stdout = open(printed, "rb", buffering=0)
        ours.append(out)
        try:
            self.number = os.posix_spawn(command[0], command, os.environ, setsigdef=AS_BEFORE,
                                         file_actions=[(os.POSIX_SPAWN_DUP2, into, 0), (os.POSIX_SPAWN_DUP2, out, 1)])
        except BaseException:
            for stream in filter(None, (self.stdin, self.stdout)):
                stream.close()
            raise
        finally:
            for descriptor in ours:
                os.close(descriptor)

    def poll(self, how=os.WNOHANG):
        """how it ended, by a signal below 0; None where it has not"""
        if self.returncode is None:
            try:
                number, status = os.waitpid(self.number, how)
            except ChildProcessError:
                # where the caller ignores SIGCHLD the system takes how it ended; so what it printed has to say it
                number, status = self.number, 0
            if number:
                self.returncode = os.waitstatus_to_exitcode(status)
        return self.returncode

    def wait(self):
        """how it ended, once it has"""
        return self.poll(0)

    def kill(self):
        """ends it, where it has not ended"""
        if self.poll() is None:
            os.kill(self.number, signal.SIGKILL)


def _keep_open_files():
    """no program gets the files that the caller has left open for this one"""
    with contextlib.suppress(OSError):
        for descriptor in map(int, os.listdir("/proc/self/fd")):
            # the listing itself is closed by now
            with contextlib.suppress(OSError):
                os.set_inheritable(descriptor, descriptor <= 2 and os.get_inheritable(descriptor))
