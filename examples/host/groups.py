"""Services as process groups: launching, signalling, and seeing when nothing of a launch is left. Linux only.

The host becomes the reaper of all its descendants: a process whose parent has ended becomes a child of the host, which sees its end and takes its
zombie away. Without that the zombie would stay in the group, and the group would never be seen empty. And so a process that has left its group, by
setsid() or setpgid(), is found when its parent has ended: it is a child of the host that is in none of its groups.
"""
import contextlib
import ctypes
import os
import signal

from story import say

PR_SET_CHILD_SUBREAPER = 36

# What a launched process gets the default action of: a host that was started by nohup, or in the background of a script, ignores some itself.
DEFAULTED = signal.valid_signals() - {signal.SIGKILL, signal.SIGSTOP}


def become_reaper():
    if ctypes.CDLL(None, use_errno=True).prctl(PR_SET_CHILD_SUBREAPER, 1, 0, 0, 0) != 0:
        raise OSError(ctypes.get_errno(), 'this system has no child subreaper')


def children():
    """The processes whose parent this one is, zombies too: the group of each, by its number."""
    found = {}
    for name in filter(str.isdigit, os.listdir('/proc')):
        try:
            with open(f'/proc/{name}/stat', encoding='utf-8', errors='replace') as file:
                parent, group = file.read().rpartition(')')[2].split()[1:3]
        except OSError:
            continue
        if int(parent) == os.getpid():
            found[int(name)] = int(group)
    return found


def end_child(child):
    """Ends a child by its number, which it keeps until it is reaped. One that may not be signalled has to be waited for."""
    with contextlib.suppress(PermissionError):
        os.kill(child, signal.SIGKILL)


def end_all():
    """Ends every process below this one, in whatever group, and returns when none is left: the children of one that has ended become children of
    the reaper, and are ended in their turn."""
    while True:
        for child in children():
            end_child(child)
        try:
            os.wait()
        except ChildProcessError:
            return


def send(group, number):
    """Signals all processes of a group; whether there was any. One that may not be signalled is there all the same."""
    try:
        os.killpg(group, number)
    except ProcessLookupError:
        return False
    except PermissionError:
        pass
    return True


def is_empty(group):
    """A group with a zombie is not empty, and that is on the safe side."""
    return not send(group, 0)


class Groups:
    """The live groups. `watch` is what the end of a service is taken to be: 'group', that nothing of its launch is left; or 'process', which is wrong
    and here to be shown, that the process that was launched has ended."""

    def __init__(self, watch, names):
        self.watch, self.names = watch, names
        self.services = {}   # by the number of a group, which is that of the process that was launched: its service
        self.statuses = {}   # by the same number: the exit status of that process, once it has ended
        self.asked = set()   # the groups that were sent a signal
        self.strays = set()  # the processes that were seen to have left their group
        self.left = []       # the groups that were taken to have ended and were not empty

    def launch(self, service, tokens, environment):
        """Starts a process in a group of its own; where it cannot be started, OSError is raised. The group is there when this returns: the child
        makes it before its program begins, and posix_spawn waits for that."""
        group = os.posix_spawnp(tokens[0], tokens, environment, setpgroup=0, setsigmask=[], setsigdef=DEFAULTED)
        self.services[group] = service
        return group

    def signal(self, service, number):
        """Signals the whole group of a service whose end is not reported. Where its first process is reaped, and the rest has ended since it was
        looked at, its number is free and could by now be a stranger's: docs/HOST.md says what closes that gap."""
        for group, owner in self.services.items():
            if owner == service:
                self.asked.add(group)
                send(group, number)

    def ends(self):
        """The services that have ended since, each with whether its end was good: the first process is reaped and the group is empty. It does not
        wait. The groups are looked at before the strays: once a group is empty, whatever has left it is a child of the host, or comes from one."""
        self.reap()
        found = [group for group in self.statuses if self.watch == 'process' or is_empty(group)]
        if self.watch == 'group' and self.end_strays():
            return []
        self.left = [group for group in self.left + found if not is_empty(group)]
        self.asked.difference_update(found)
        return [(self.services.pop(group), self.statuses.pop(group) == 0) for group in found]

    def reap(self):
        """Takes away every zombie."""
        while True:
            try:
                zombie = os.waitid(os.P_ALL, 0, os.WEXITED | os.WNOHANG | os.WNOWAIT)
            except ChildProcessError:
                return
            if zombie is None:
                return
            if zombie.si_pid in self.services:
                self.end_leader(zombie)
            else:
                os.waitpid(zombie.si_pid, 0)

    def end_leader(self, zombie):
        """Where no signal was sent, nothing else would ever end the rest of the group: so it is ended here. While the zombie of the leader is there
        the number of the group is taken, so this comes before the zombie is taken away. Where a signal was sent, the rest got it too, and has the
        time that the core gives it."""
        group = zombie.si_pid
        ends_rest = self.watch == 'group' and group not in self.asked
        if ends_rest:
            send(group, signal.SIGKILL)
        os.waitpid(group, 0)
        self.statuses[group] = zombie.si_status if zombie.si_code == os.CLD_EXITED else -1
        name, is_left = self.names[self.services[group]], not is_empty(group)
        say('host', f'{name}: the launched process has ended, its group is {"NOT " if is_left else ""}empty')
        if ends_rest and is_left:
            say('host', f'KILL to what is left of the group of {name}: no signal was sent that would end it')

    def end_strays(self):
        """Ends every child that is in none of the groups; whether there was one. The host cannot know whose it was, so no end is reported until it is
        gone. One that is a zombie counts too: its children have become the host's, and may not have been seen here."""
        strays = {child for child, group in children().items() if group not in self.services}
        for stray in sorted(strays):
            end_child(stray)
            if stray not in self.strays:
                say('host', f'KILL to process {stray}, which has left its group: no end is reported until it is gone')
        self.strays = strays
        return bool(strays)
