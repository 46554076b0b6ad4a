"""trials.py - one function for each trial of tests/recipes/try, of tables and of receivers. Its name says what is tried."""
import json
import os
import re
import time

from stage import PROSE, Receiver, Terminal, comes, free_port, in_turn, make_stream, steady, tables

KLM = "8D4840D6202CC371C32CE0576098"  # 4840D6: the callsign KLM1023
OTHER = "8D485020994409940838175B284F"  # 485020: a velocity
BAD = "8D4840D6202CC371C32CE0576099"  # a bad parity
ON_THE_GROUND = "8C4841753AAB238733C8CD4020B1", "8C4841753A8A35323FAEBDAC702D"  # 484175: even and odd
NC = "nc -w 130 127.0.0.1 30002 < /dev/null"
RUN = "./groundstation run --every 1000 "
MANY = tuple(make_stream.close(bytes([0x5D]) + it.to_bytes(3, "big"), 0) for it in range(0x4840D7, 0x4840D6 + 30))


def begin(it, command, *receivers, shell=None):
    """Types a command with the ports of receivers in the place of 30002 and 31002. Gives the terminal."""
    for port, receiver in zip(("30002", "31002"), receivers):
        command = command.replace(port, str(getattr(receiver, "port", receiver)))
    it.ends.append(Terminal(it.folder, *([shell] if shell else [])))
    it.ends[-1].type(command)
    return it.ends[-1]


def shows(it, terminal, row="^4840D6 KLM1023"):
    """Expects three tables with a row, a second apart."""
    comes_in_time = terminal.waits(row, 3)
    clocks = [int(table[0].split()[1]) for table in tables(terminal.said())]
    apart = all(950 < b - a < 4000 for a, b in zip(clocks, clocks[1:]))
    it.expect("it prints a table each second", comes_in_time and apart, terminal.said())


def stops(it, terminal, what="Ctrl-C ends it"):
    terminal.interrupt()
    it.expect(what, terminal.is_over(), terminal.said())


def one_receiver(it):
    recipe = it.recipe(RUN + "<(NC)")
    if it.needs("nc"):
        terminal = begin(it, recipe, Receiver(steady(KLM)))
        shows(it, terminal)
        stops(it, terminal)


def in_any_shell(it):
    recipe = it.recipe("NC | " + RUN + "/dev/stdin")
    if it.needs("nc"):
        terminal = begin(it, recipe, Receiver(steady(KLM)), shell=("sh", "-i"))
        shows(it, terminal)
        stops(it, terminal)


def two_receivers(it):
    recipe = it.recipe(RUN + "<(NC) <(*31002*)")
    if it.needs("nc"):
        terminal = begin(it, recipe, Receiver(steady(KLM)), Receiver(steady(OTHER)))
        shows(it, terminal, "^now .* aircraft 2\n.*\n4840D6 .*\n485020 ")
        stops(it, terminal)


def a_silent_receiver(it):
    recipe = it.recipe("NC | " + RUN + "/dev/stdin")
    it.expect("the page says what -w is for", "`-w 130` ends `nc` where nothing came for 130 s" in PROSE)
    if it.needs("nc"):
        begun = time.monotonic()
        terminal = begin(it, recipe.replace("-w 130", "-w 3"), Receiver(in_turn(KLM, 1.3, KLM, 1.3, OTHER)))
        it.expect("the run ends with nc", terminal.is_over(), terminal.said())
        it.expect("nc waits until nothing came for so long", time.monotonic() - begun > 5.5)
        it.expect("all lines are taken", "lines 3 frames 3 " in terminal.said(), terminal.said())


def nobody_listens(it):
    recipe = it.recipe(RUN + "<(NC)")
    if it.needs("nc"):
        terminal = begin(it, recipe, free_port())
        it.expect("run ends at once", terminal.is_over(), terminal.said())
        it.expect("with lines 0", terminal.waits("^lines 0 "), terminal.said())
        it.expect("nc prints nothing", not re.search("^(?!now |  ADDR|lines |$)", terminal.said(), re.M), terminal.said())
        it.expect("the page says who does", "`nc` prints nothing, and `run` ends at once with `lines 0`. `nc -v` says so." in PROSE)
        terminal = begin(it, recipe.replace("nc ", "nc -v "), free_port())
        it.expect("nc -v says so", terminal.waits("(?i)refused"), terminal.said())


def by_ncat(it):
    recipe = it.recipe("NC | " + RUN + "/dev/stdin")
    words = re.search("With `ncat` write `(ncat .*?)`", PROSE)
    it.expect("the page says how", words)
    if words and it.needs("ncat"):
        terminal = begin(it, recipe.replace("nc -w 130", words[1]), Receiver(steady(KLM)))
        shows(it, terminal)
        stops(it, terminal)
        silent = words[1].replace("130", "3")
        terminal = begin(it, recipe.replace("nc -w 130", silent), Receiver(in_turn(KLM, 1.3, OTHER)))
        it.expect("ncat ends where nothing comes", terminal.is_over() and "lines 2 frames 2 " in terminal.said(), terminal.said())


def a_screen(it):
    recipe = it.recipe(RUN + "<(NC) |*gawk*")
    it.expect("the page says what else works", "`mawk -W interactive` works too" in PROSE)
    for tool, call in ("gawk", "gawk"), ("mawk", "mawk -W interactive"):
        if it.needs("nc", tool):
            terminal = begin(it, recipe.replace("gawk", call), Receiver(steady(KLM, *MANY)))
            it.expect("by %s it renews itself" % tool, terminal.waits("\033\\[H\033\\[J" + "now .* aircraft 30\n", 3), terminal.said())
            screens = [text.count("\n") for text in terminal.said().split("\033[H\033[J")[1:-1]]
            it.expect("by %s it has at most 23 lines" % tool, screens and max(screens) == 23, screens)
            stops(it, terminal)


def on_the_ground(it):
    north, south = it.recipe(RUN + "--at 52*<(NC)"), it.recipe(RUN + "--at=-*<(NC)")
    if it.needs("nc"):
        terminal = begin(it, north, Receiver(steady(*ON_THE_GROUND)))
        shows(it, terminal, "^484175 - +ground +- +G16/98 +- +52.32060 +4.73473")
        stops(it, terminal)
        terminal = begin(it, south, Receiver(steady(*ON_THE_GROUND)))
        shows(it, terminal, "^484175 - +ground +- +G16/98 +- +-37.67939 +")
        stops(it, terminal)


def a_record(it):
    recipe, replay = it.recipe(RUN + "--record *<(NC)"), it.recipe("./groundstation replay < day.avr")
    if it.needs("nc"):
        terminal = begin(it, recipe, Receiver(steady(KLM, BAD)))
        shows(it, terminal)
        time.sleep(0.3)
        stops(it, terminal)
        printed = tables(terminal.said())
        terminal.type(replay)
        it.expect("the replay ends", terminal.is_over() and terminal.waits("^lines "), terminal.said())
        it.expect("it prints what the run printed", tables(terminal.said()) == printed, terminal.said())
        terminal.type(recipe)
        it.expect("a file that has bytes is refused", terminal.waits(r"^groundstation: cannot record to day.avr \(it has bytes\)$"), terminal.said())


def a_receiver_that_drops(it):
    loop, recipe = it.recipe("mkfifo north; while *NC > north*done &"), it.recipe(RUN + "--reopen north")

    def drops(number):
        return [1.5, "*%s;\n" % KLM, 1] if number == 0 else steady(OTHER)(number)
    if it.needs("nc"):
        receiver = Receiver(drops)
        terminal = begin(it, loop, receiver)
        terminal.type(recipe)
        shows(it, terminal, "^now .* aircraft 2\n.*\n4840D6 .*\n485020 ")
        reported = re.findall("^groundstation: (.*)$", terminal.said(), re.M)
        it.expect("the drop is reported", reported[:2] == ["north ended", "north opened"], terminal.said())
        stops(it, terminal)
        terminal.type("kill %1")
        it.expect("kill %1 ends the loop", terminal.is_over() and comes(lambda: len(list(terminal.processes())) == 1),
                  list(terminal.processes()))
        it.expect("it connected twice", receiver.connections == 2, receiver.connections)


def receivers_that_are_watched(it):
    """With pipes that this script writes, and 60 seconds of one."""
    recipe = it.recipe(RUN + "--reopen --watch 60 --json /run/groundstation north south")
    for name in ("north", "south"):
        os.mkfifo(it.folder / name)
    (it.folder / "shown").mkdir()
    terminal = begin(it, recipe.replace("60", "1").replace("/run/groundstation", "shown"))
    with open(it.folder / "north", "w") as north:
        print("*%s;" % KLM, file=north, flush=True)
        shows(it, terminal)
        it.expect("the silence is reported, and the pipe without a writer",
                  terminal.waits("^groundstation: north silent") and terminal.waits("^groundstation: south not open"), terminal.said())
        print("*%s;" % OTHER, file=north, flush=True)
        it.expect("it is heard again", terminal.waits("^groundstation: north heard"), terminal.said())
        north_now = lambda: json.loads((it.folder / "shown/receivers.json").read_text())["receivers"][0]
        it.expect("a page sees what it has counted", comes(lambda: north_now()["accepted"] == 2), north_now())
    stops(it, terminal)


def a_key_in_the_background(it):
    """The reason that the page gives for `< /dev/null`."""
    loop = it.recipe("mkfifo north; while *NC > north*done &")
    it.expect("the page gives it", "Each `nc` in the background needs `< /dev/null`" in PROSE)
    if it.needs("nc"):
        terminal = begin(it, loop, Receiver(steady(KLM)))
        terminal.type("cat < north")
        it.expect("lines come", terminal.waits(KLM), terminal.said())
        terminal.type("a key")
        it.expect("they come after a key too", terminal.waits(KLM, 3), terminal.said())
        stops(it, terminal)


def the_end_of_a_run(it):
    recipe = it.recipe("NC | (trap * " + RUN + "/dev/stdin)")
    if it.needs("nc"):
        terminal = begin(it, recipe, Receiver(steady(KLM)))
        shows(it, terminal)
        stops(it, terminal)
        counts = re.search(r"^lines (\d+) frames (\d+) ", terminal.said(), re.M)
        it.expect("the counts are printed", counts and int(counts[1]) >= 9, terminal.said())


def a_clean_end(it):
    recipe = it.recipe("(mkfifo stop; trap * --stop stop <(NC) & wait; wait; rm stop)")
    if it.needs("nc"):
        terminal = begin(it, recipe, Receiver(steady(KLM)))
        shows(it, terminal)
        stops(it, terminal)
        counts = re.search(r"^lines (\d+) frames (\d+) ", terminal.said(), re.M)
        it.expect("the counts are printed", counts and int(counts[1]) >= 3, terminal.said())
        it.expect("the pipe is removed", not (it.folder / "stop").exists())


def kept_lines(it):
    line = re.search(r"`nc \.\. (\| tee day.avr \| ./groundstation run --every 1000 /dev/stdin)`", PROSE)
    it.expect("the page has the line", line)
    if line and it.needs("nc"):
        terminal = begin(it, NC + " " + line[1], Receiver(steady(KLM, BAD)))
        shows(it, terminal)
        stops(it, terminal)
        kept = (it.folder / "day.avr").read_text().splitlines()
        it.expect("it keeps the lines, without times", len(kept) >= 12 and set(kept) == {"*%s;" % KLM, "*%s;" % BAD}, kept)
