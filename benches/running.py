"""Modules that run on for ever, and what their events do.

No certificate covers them: the reference machine runs them all the same.
"""

from collections import namedtuple
from itertools import chain, cycle, islice

from modules import BASE, FRAME_WORD, IN, LINK, OUT, Branch, Par, assembled, code, looped, module, module_of, opening

MAX_DATA_WORDS = 16_384
ONE_LINK = (4, 0, 0, 0, 4, 0, 0, 0)  # messages of four bytes on link 0, out and in
ARITHMETIC = "ldc 5, stl 1, ldl 1, adc 1, stl 1"
ANNOUNCED = "ldc 5, stl 1, ldlp 1, mint, ldc 4, out"  # a word on link 0
STOPPED = "stopp"

# A module's file, and its events: those before it goes round, and those of a turn. Of an event, r says that a byte was
# executed, e that a message went out with it, and a point that none was.
Running = namedtuple("Running", "file before turn", defaults=("", "r"))


def checksum(running, times):
    """What is printed after so many events."""
    total, executed = 0, 0
    for event in islice(chain(running.before, cycle(running.turn)), times):
        total = 31 * total + (event == "r") & 2**64 - 1
        executed += event != "."
    return 31 * total + executed & 2**64 - 1


def announced(straight):
    """What so many bytes do that end with the message on link 0, whose sender then goes on."""
    return (straight - 1) * "r" + "e."


def turning(text, turn="r", lengths=(0,) * 8):
    return Running(module(looped(text), BASE + 3, lengths=lengths), "", turn)


def arithmetic():
    return turning(ARITHMETIC)


def pointers():
    return turning("ldc 5, ldlp 1, stnl 0, ldlp 1, ldnl 0, ldlp 2, stnl 0")


def calls():
    """Over the procedure, which only returns, and then round and round."""
    return Running(module(code("j 2, ret, call -4, j -4"), BASE + 3))


def alternation():
    return turning("alt, ldc 1, enbs, altwt, ldc 1, ldc 0, diss, altend")


def link_copy():
    """Four bytes come on link 0, one by one, and go out on link 0. Each byte comes once nobody runs."""
    receive, send = "ldlp 1, mint, ldnlp 4, ldc 4, in", "ldlp 1, mint, ldc 4, out"
    turn = len(code(receive)) * "r" + 4 * ".." + announced(len(code(send))) + "rr"
    return turning(f"{receive}, {send}", turn, ONE_LINK)


def exchange():
    """One process sends a word over and over, and another receives it."""
    channel, sender, receiver = 2, 6, 11
    ends = [(FRAME_WORD, channel, 0, direction) for direction in (OUT, IN)]
    branches = [
        Branch("sender", sender, (sender - 3, sender + 2), ends[:1]),
        Branch("receiver", receiver, (receiver - 3, receiver + 2), ends[1:]),
    ]
    par = Par(0, 0, [channel], branches, "rest")
    blocks = {
        "root": opening(par),
        "sender": "ldc 5, stl 1",
        "sending": looped(f"ldlp 1, ldlp {channel - sender}, ldc 4, out"),
        "receiver": looped(f"ldlp 1, ldlp {channel - receiver}, ldc 4, in"),
        "rest": STOPPED,
    }
    return Running(module_of(blocks, [par], BASE + receiver + 2))


def joins(data_words):
    """A PAR with four channels, over and over. Its branch only ends."""
    workspace = 9
    par = Par(0, 0, range(2, 6), [Branch("branch", workspace, (workspace - 3, workspace), [])], "rest")
    blocks = {"root": opening(par), "branch": f"ldlp {-workspace}, endp", "rest": "j root/0"}
    return Running(module_of(blocks, [par], data_words))


def alone():
    """One process that sends a message on link 0 and then goes round."""
    straight = code(ANNOUNCED)
    return Running(module(straight + looped(ARITHMETIC), BASE + 3, lengths=ONE_LINK), announced(len(straight)))


GROUPS, MEMBERS, MEMBER_WORDS = 20, 50, 5
GROUP_WORDS = 5 + MEMBERS * (2 + MEMBER_WORDS)  # three below the workspace, the join block, and channels and members
MEETING = 2  # the frame word of the channel between the two halves of a crowd


def groups(name, start):
    """Branches that open a PAR each, with their words from this one on."""
    starts = range(start, start + GROUPS * GROUP_WORDS, GROUP_WORDS)
    return [Branch(f"{name}{n}", at + 3, (at, at + GROUP_WORDS), []) for n, at in enumerate(starts)]


def members(context, group):
    """The PAR of a group: each branch receives on one of two channels, and sends on the other."""
    channels = range(group.workspace + 2, group.workspace + 2 + 2 * MEMBERS)
    starts = range(channels.stop, channels.stop + MEMBERS * MEMBER_WORDS, MEMBER_WORDS)
    branches = []
    for n, (at, channel) in enumerate(zip(starts, channels[::2])):
        ends = [(FRAME_WORD, channel, 0, IN), (FRAME_WORD, channel + 1, 0, OUT)]
        branches.append(Branch(f"{group.block}.{n}", at + 3, (at, at + MEMBER_WORDS), ends))
    return Par(context, group.workspace, channels, branches, "rest")


def receiving(branch, channel):
    return f"ldlp 1, ldlp {channel - branch.workspace}, ldc 4, in"


def crowd():
    """1,000 processes wait on channels of their own, 1,000 are ready, and another one goes round.

    The root opens a PAR of groups, whose members wait, and of one more branch. That branch waits for a word of the
    last member. Then it opens a PAR of groups, whose members go round, and of one more branch, which sends a message
    on link 0 and goes round too. The first of those members runs meanwhile, and from then on.
    """
    middle = 3 + GROUPS * GROUP_WORDS
    last = middle + 6 + GROUPS * GROUP_WORDS
    sent, met = ((FRAME_WORD, MEETING, 0, direction) for direction in (OUT, IN))
    link = (LINK, 0, 0, OUT)
    waiting, ready = groups("waiting", 3), groups("ready", middle + 6)
    waiting[-1].ends.append(sent)
    starter = Branch("starter", middle + 3, (middle, last + MEMBER_WORDS), [met, link])
    announcer = Branch("announcer", last + 3, (last, last + MEMBER_WORDS), [link])
    outer = Par(0, 0, [MEETING], [*waiting, starter], "rest")
    inner = Par(GROUPS + 1, starter.workspace, [], [*ready, announcer], "rest")
    inner_contexts = GROUPS + 2 + GROUPS * MEMBERS
    waiting_pars = [members(1 + n, group) for n, group in enumerate(waiting)]
    ready_pars = [members(inner_contexts + n, group) for n, group in enumerate(ready)]
    sender = waiting_pars[-1].branches[-1]
    sender.ends.append(sent)

    straight = {"root": opening(outer)}
    straight |= {group.block: opening(par) for group, par in zip(waiting, waiting_pars)}
    straight["starter"] = f"ldlp 2, ldlp {MEETING - starter.workspace}, ldc 4, in, {opening(inner)}"
    for par in waiting_pars:
        straight |= {it.block: receiving(it, channel) for it, channel in zip(par.branches, par.channels[::2])}
    to_starter = f"ldc 5, stl 1, ldlp 1, ldlp {MEETING - sender.workspace}, ldc 4, out"
    straight[sender.block] = f"{to_starter}, {straight[sender.block]}"
    straight |= {group.block: opening(par) for group, par in zip(ready, ready_pars)}
    straight["announcer"] = ANNOUNCED
    loops = {"announced": looped(ARITHMETIC)}
    loops |= {it.block: looped(ARITHMETIC) for par in ready_pars for it in par.branches}
    blocks = {**straight, **loops, "rest": STOPPED}
    file = module_of(blocks, [outer, *waiting_pars, inner, *ready_pars], MAX_DATA_WORDS, ONE_LINK)
    bytes_round = sum(map(len, loops.values())) + len(code(STOPPED))
    return Running(file, announced(len(assembled(blocks)[0]) - bytes_round))
