"""What an agent must not wait for, as a disk or who reads; and files that are not its own."""
import os
import re
import signal
import socket
import subprocess
import threading

from daemons import PATIENCE, becomes, during, of_tree, patient, took, until
from runner import sure

# Calls of the system that do something else while there is a file that is named for them: most of
# them wait, and say so by another file.
PRELOADED = r"""
#define _GNU_SOURCE
#include <dlfcn.h>
#include <errno.h>
#include <fcntl.h>
#include <netdb.h>
#include <stdio.h>
#include <stdlib.h>
#include <string.h>
#include <sys/epoll.h>
#include <sys/socket.h>
#include <sys/syscall.h>
#include <unistd.h>
static int is_on(const char *call)
{
    return getenv(call) && !access(getenv(call), F_OK);
}
static void waits(const char *call)
{
    char began[4096];
    if (is_on(call)) {
        snprintf(began, sizeof began, "%s.began", getenv(call));
        int file = open(began, O_CREAT | O_WRONLY | O_APPEND, 0600);
        syscall(SYS_write, file, ".", 1);       /* one for each call */
        close(file);
    }
    while (is_on(call))
        usleep(10000);
}
int fsync(int file)
{
    waits("of_fsync");
    return syscall(SYS_fsync, file);
}
int unlink(const char *path)
{
    if (strstr(path, "/.pending/"))
        waits("of_unlink");     /* the mark of a hook that has ended */
    return syscall(SYS_unlinkat, AT_FDCWD, path, 0);
}
int rename(const char *from, const char *to)
{
    if (strstr(to, "/colour"))
        waits("of_rename");     /* the file of a setting does not come to its place */
    return syscall(SYS_renameat2, AT_FDCWD, from, AT_FDCWD, to, 0);
}
ssize_t write(int file, const void *bytes, size_t length)
{
    if (length == 4 && !memcmp(bytes, "blue", 4) && is_on("of_write"))
        bytes = "glue";         /* and the call says that all is well */
    return syscall(SYS_write, file, bytes, length);
}
int accept4(int listener, struct sockaddr *from, socklen_t *length, int flags)
{
    errno = EAGAIN;             /* and nobody is there, by what the call says */
    return is_on("of_accept4") ? -1 : syscall(SYS_accept4, listener, from, length, flags);
}
int getaddrinfo(const char *name, const char *service, const struct addrinfo *hints,
                struct addrinfo **found)
{
    int (*next)(const char *, const char *, const struct addrinfo *, struct addrinfo **) =
        dlsym(RTLD_NEXT, "getaddrinfo");
    waits("of_getaddrinfo");    /* as where no server of names answers */
    return next(name, service, hints, found);
}
int epoll_wait(int poll, struct epoll_event *events, int most, int timeout)
{
    waits("of_epoll_wait");     /* the loop hangs, and no other thread does */
    return syscall(SYS_epoll_pwait, poll, events, most, timeout, NULL, 8);
}
"""


def preload(agent, call):
    """From its next start on a call of an agent waits, or spoils what is written, while there is a
    file: which one."""
    home = agent.tree.home
    (home / "slow.c").write_text(PRELOADED)
    subprocess.run(["cc", "-shared", "-fPIC", "-o", home / "slow.so", home / "slow.c"], check=True)
    agent.env = {"LD_PRELOAD": str(home / "slow.so"), f"of_{call}": str(home / "slow")}
    return home / "slow"


def answers(agent):
    """Whether it says its status soon."""
    return bool(agent.status(3 * PATIENCE))


def ends(agent):
    """Asserts that it ends soon, as it is told to."""
    agent.signal(signal.SIGTERM)
    sure(until(lambda: not agent.alive(), 5) and agent.process.returncode == 0, "it does not end")


class Unread:
    """An agent whose standard error is a pipe of a journal that nobody reads yet."""

    def __init__(self, agent):
        agent.configure()
        self.pipe, write = os.pipe()
        journal = "{0.st_dev}:{0.st_ino}".format(os.fstat(write))
        agent.process = subprocess.Popen(
            [agent.tree.bin / "rignoldad", agent.file], stderr=write, stdin=subprocess.DEVNULL,
            env={**os.environ, "JOURNAL_STREAM": journal})
        os.close(write)
        self.text = b""

    def read(self):
        """Reads it, to its end."""
        while piece := os.read(self.pipe, 1 << 16):
            self.text += piece


@of_tree({"left": "root"}, patient, runs=False)
def a_standard_error_that_nobody_reads_stops_nobody(tree, root, left):
    """4,000 settings with long names, of each of which a line is said. Each line has a priority."""
    (root.truth / "no key").touch()
    unread = Unread(root)
    for is_away in True, False:
        left.start()
        sure(until(lambda: answers(root) and left.up()), "the tree is not ready")
        if is_away:
            left.kill()
            sure(until(lambda: not root.status()["children"][0]["connected"]), "it is there")
    for at in range(4_000):
        (root.truth / f"{'k' * 100}{at}").touch()
    applied = lambda: root.settings.exists() and len(list(root.settings.iterdir()))
    sure(until(lambda: applied() >= 4_000), "they are not applied", applied())
    sure(answers(root), "it does not answer")
    (root.truth / "no key").unlink()
    tree.write("after", "that")
    tree.settles(left)
    # what did not fit is counted, once somebody reads it, and each line is a whole one
    threading.Thread(target=unread.read, daemon=True).start()
    for words in (b"<5>start root life", b"<5>connected left", b"<4>closed left",
                  b"<3>settings `no key` is no key", b"lines are left out"):
        sure(until(lambda: words in unread.text), words, unread.text[-300:])
    odd = [line for line in unread.text.decode().splitlines()[:-1] if not re.fullmatch(
        "<[3-6]>(start|applied|connected|closed|journal|settings|refused|end|published|report"
        "|parent) .*", line)]
    sure(not odd, odd[:3])
    ends(root)


@of_tree({}, runs=False)
def an_end_waits_for_no_reader(tree, root):
    Unread(root)
    sure(until(lambda: answers(root)), "it does not answer")
    # (more than a pipe takes: each reload that is refused is a line)
    root.file.write_text(f'name = "root"\nx{"y" * 600} = 1\n')
    for at in range(400):
        root.signal(signal.SIGHUP)
        if at % 10 == 0:
            sure(answers(root), "it does not answer after", at)
    ends(root)


@of_tree({"left": "root"}, runs=False, begins=True, needs="cc")
def a_disk_that_hangs_stops_nobody(tree, root, left):
    """While a file waits for the disk, the agent answers and its rounds go on; then it is there."""
    hangs = preload(root, "fsync")
    root.tables["root"]["round"] = "500ms"
    tree.begin()
    hangs.touch()
    with subprocess.Popen(root.command("publish", "slow", "1"), stdout=subprocess.DEVNULL):
        sure(until((tree.home / "slow.began").exists), "nothing waits for the disk")
        rounds = root.status()["round"]
        for _ in during(9, pause=0.1):
            sure(took(root.status) < PATIENCE, "it answers late")
        sure("slow" not in left.files(), "it is published before the disk has it")
        # (a round waits for the disk, but not for ever)
        sure(root.status()["round"] > rounds, "there is no round")
        sure(root.said("the disk does not answer") == 1, root.text()[-500:])
        hangs.unlink()
    becomes(lambda: left.files().get("slow"), b"1")
    tree.settles()
    root.becomes(unpublished=0)


@of_tree({"left": "root"}, runs=False, needs="cc")
def a_name_that_is_looked_up_for_long_is_looked_up_once(tree, root, left):
    """And what comes of it leads to a connection."""
    hangs, asked = preload(left, "getaddrinfo"), tree.home / "slow.began"
    left.top["parents"] = [f"root@localhost:{root.port}"]
    hangs.touch()
    tree.start()
    sure(until(asked.exists), "it looks up no name")
    for _ in during(5, pause=0.1):
        sure(asked.stat().st_size == 1, "it is looked up again, while the first one goes on")
    hangs.unlink()
    tree.is_ready()


@of_tree({}, runs=False)
def what_lies_where_a_socket_is_to_be_is_moved_aside_and_kept(tree, root):
    """At a start, in a folder of the agent's own. If others may write to it, it is left, and said.
    (What may lie there is in listener.rs.)"""
    around = tree.home / "around"
    around.mkdir()
    root.socket = around / "control"
    for mode, kept in (0o777, root.socket), (0o755, around / "control.aside1"):
        around.chmod(mode)
        root.socket.write_text("mine")
        root.start()
        # (the journal is written beside the answers)
        root.says(str(kept))
        if kept == root.socket:
            sure(until(lambda: not root.alive()) and root.process.returncode == 1, "it runs")
        else:
            sure(until(root.status), root.text())
        root.kill()
        sure(kept.read_text() == "mine", "it is another one")


@of_tree({"left": "root"})
def a_socket_that_goes_while_its_agent_runs_comes_back(tree, root, left):
    """Its file is removed or replaced. What came to its place is kept, and no link ends."""
    path, kept = root.socket, []
    for at, make in enumerate((lambda: None, lambda: path.write_text("mine"),
                               lambda: path.symlink_to("elsewhere"), lambda: path.mkdir(),
                               lambda: os.mkfifo(path),
                               lambda: socket.socket(socket.AF_UNIX).bind(str(path)))):
        path.unlink()
        make()
        sure(until(root.status), at, root.text()[-500:])
        kept.append(len(list(root.home.glob("control.aside*"))))
    sure(kept == [0, 1, 2, 3, 4, 4], kept)
    sure((root.home / "control.aside1").read_text() == "mine")
    # another process listens there: that is said once, and ends with it
    path.unlink()
    with socket.socket(socket.AF_UNIX) as other:
        other.bind(str(path))
        other.listen()
        sure(until(lambda: root.said("is lost: another process listens there")), root.text()[-500:])
        tree.write("meanwhile", "1")
        tree.settles(left)
    sure(until(root.status), root.text()[-500:])
    sure(root.said("is lost: another process listens there") == 1, root.text()[-900:])
    sure(left.said("connected the parent root") == 1, left.text())
    # at its end it removes its own alone
    path.unlink()
    path.write_text("mine")
    root.signal(signal.SIGTERM)
    sure(until(lambda: not root.alive()))
    sure("mine" in {it.read_text() for it in root.home.glob("control*") if it.is_file()})


@of_tree({"left": "root"}, runs=False, needs="cc")
def a_hooks_mark_that_cannot_go_yet_stops_nobody(tree, root, left):
    """A disk hangs where a hook has ended, and no descriptor of the agent is the hook's."""
    slow = preload(left, "unlink")
    left.hook(f"ls -l /proc/self/fd >{left.home}/said")
    tree.begin()
    slow.touch()
    tree.write("late", "1")
    sure(until((tree.home / "slow.began").exists), "no mark is removed")
    is_answered = answers(left)
    slow.unlink()
    sure(is_answered, "it waits for the disk")
    tree.settles()
    tree.wait()
    said = (left.home / "said").read_text()
    sure(said.count(" -> ") == 4 and "socket:" not in said, said)
