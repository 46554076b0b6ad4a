"""trials_of_logs.py - one function for each trial of tests/recipes/try, of records, logs, displays and the unit file."""
import datetime
import json
import os
import re
import shlex
import signal
import subprocess
import time
import urllib.request

from stage import PATIENCE, PROSE, TOP, Receiver, Service, comes, free_port, head_of, in_turn, steady
from trials import BAD, KLM, NC, ON_THE_GROUND, OTHER, RUN, begin, shows, stops

IN_THE_AIR = "8D484175580B02E148F2B03A62BC", "8D484175580B064C76EBF2D4F97E"  # 484175: even and odd
SQUAWKS_2000, SQUAWKS_7700 = "28000200742318", "28000AAA02E41F"  # 4840D6
EMERGENCY = "8D4840D6E12000000000007A2472"  # 4840D6, without a squawk


def text_of(it, name):
    """What is in a file, if it is there."""
    path = it.folder / name
    return path.read_text() if path.exists() else ""


def lines_of(it, name):
    """The lines of a table of values, each the list of its values."""
    return [line.split("\t") for line in text_of(it, name).splitlines()]


def is_now(text, within=PATIENCE):
    """Whether a time in words is the present, more or less."""
    return abs(datetime.datetime.fromisoformat(text.replace("Z", "+00:00")).timestamp() - time.time()) < within


def logged(it, example, text, *options):
    """What the program of an example prints of the tables of a text of AVR lines, each the list of its values."""
    ran = subprocess.run(["bash", "-c", "./groundstation replay \"$@\" --format json | jq -nr -f examples/" + example, "bash", *options],
                         input=text, cwd=it.folder, stdout=subprocess.PIPE, stderr=subprocess.DEVNULL, text=True, timeout=PATIENCE)
    return [line.split("\t") for line in ran.stdout.splitlines()]


def day(*parts):
    """AVR lines: a frame is a text, and a number the time in seconds, at which there is a table."""
    return "".join("+%d\n?\n" % (1000 * it) if isinstance(it, int) else "*%s;\n" % it for it in parts)


def a_recording_with_dates(it):
    recipe = it.recipe("NC | gawk -f examples/ticks.awk > day.avr")
    if it.needs("nc", "gawk", "jq"):
        terminal = begin(it, recipe, Receiver(in_turn(*[KLM, BAD, 0.3] * 10, 2.5, OTHER)))
        it.expect("all comes", comes(lambda: OTHER in text_of(it, "day.avr")))
        stops(it, terminal, "Ctrl-C ends a recording")
        kept = text_of(it, "day.avr")
        it.expect("refused lines are in it too", kept.count(BAD) == 10, kept)
        times = [int(line) for line in kept.splitlines() if line.startswith("+")]
        it.expect("it has a tick and a table each second in which lines come", len(times) >= 4 and len(times) == kept.count("?")
                  and all(1000 <= b - a <= 4000 for a, b in zip(times, times[1:])), times)
        it.expect("a frame comes after the tick of its second", kept.endswith("+%d\n?\n*%s;\n" % (times[-1], OTHER))
                  and times[-1] - times[-2] >= 2000, kept)
        found = logged(it, "movements.jq", kept)
        it.expect("its movements have the date", len(found) == 1 and is_now(found[0][0]) and found[0][2:] == ["4840d6", "KLM1023"], found)


def a_record_with_dates(it):
    recipe, dating = it.recipe(RUN + "--record day.avr <(NC)"), it.recipe("gawk *day.avr*dated.avr*")
    if it.needs("nc", "gawk", "jq"):
        terminal = begin(it, recipe, Receiver(steady(KLM)))
        shows(it, terminal)
        stops(it, terminal)
        found = logged(it, "movements.jq", text_of(it, "day.avr"))
        it.expect("the record has none", len(found) == 1 and found[0][0].startswith("1970-01-01T00:00:"), found)
        terminal.type(dating)
        it.expect("they are added", terminal.is_over() and text_of(it, "dated.avr"), terminal.said())
        found = logged(it, "movements.jq", text_of(it, "dated.avr"))
        if subprocess.check_output(["stat", "-c", "%W", it.folder]).strip() == b"0":
            it.skip("the file system doesn't know when a file was made")
        else:
            it.expect("then its movements have the date", len(found) == 1 and is_now(found[0][0]), found)


def landings(it):
    recipe = it.recipe("NC | (trap *landings.jq*)")
    check_landings(it, recipe)


def landings_by_their_head(it):
    check_landings(it, head_of("landings.jq")[0].replace("LAT,LON", "52.31,4.76"))


def check_landings(it, recipe):
    if it.needs("nc", "jq"):
        terminal = begin(it, recipe, Receiver(in_turn(*IN_THE_AIR, KLM, 3.3, *ON_THE_GROUND, 3.3, *IN_THE_AIR)))
        it.expect("a line comes at once", comes(lambda: len(lines_of(it, "landings.tsv")) == 2), lines_of(it, "landings.tsv"))
        stops(it, terminal)
        found = lines_of(it, "landings.tsv")
        it.expect("it finds what landed and took off", [line[1:] for line in found] == [[what, "484175", "-"] for what in ("landed", "took off")]
                  and all(is_now(line[0]) for line in found), found)


def movements(it):
    it.expect("the page names it", "In this form `examples/movements.jq` lists those too that are still there at the end." in PROSE)
    check_movements(it, it.recipe("NC | (trap *landings.jq*)").replace("landings", "movements").replace("--at 52.31,4.76 ", ""))


def movements_by_their_head(it):
    check_movements(it, head_of("movements.jq")[0])


def check_movements(it, recipe):
    if it.needs("nc", "jq"):
        terminal = begin(it, recipe, Receiver(steady(KLM, OTHER)))
        time.sleep(3.5)
        stops(it, terminal)
        found = sorted(lines_of(it, "movements.tsv"), key=lambda line: line[2:])
        it.expect("Ctrl-C loses no row of those that are still there", [line[2:] for line in found] == [["4840d6", "KLM1023"], ["485020", "-"]]
                  and all(is_now(text) for line in found for text in line[:2]), found)


def logs_of_a_day(it):
    """The three programs over the tables of a made day, which begins at 1,000,000,000 seconds."""
    if not it.needs("jq"):
        return
    text = day(10**9, KLM, 10**9 + 1, OTHER, 10**9 + 30, KLM, 10**9 + 31, 10**9 + 92, 10**9 + 93, OTHER, 10**9 + 94)
    found = logged(it, "movements.jq", text)
    it.expect("movements", found == [
        ["2001-09-09T01:46:40Z", "2001-09-09T01:47:10Z", "4840d6", "KLM1023"], ["2001-09-09T01:46:41Z", "2001-09-09T01:46:41Z", "485020", "-"],
        ["2001-09-09T01:48:13Z", "2001-09-09T01:48:13Z", "485020", "-"]], found)
    found = logged(it, "hours.jq", day(10**9, KLM, OTHER, 10**9 + 30, 10**9 + 3600, OTHER, 10**9 + 3601))
    it.expect("hours", found == [["2001-09-09T01:00:00Z", "2", "2"], ["2001-09-09T02:00:00Z", "1", "1"]], found)
    text = day(10**9, *ON_THE_GROUND, 10**9 + 1, *IN_THE_AIR, 10**9 + 5, 10**9 + 100, *ON_THE_GROUND, 10**9 + 101)
    found = logged(it, "landings.jq", text, "--at", "52.31,4.76")
    it.expect("landings, with a silence between", found == [
        ["2001-09-09T01:46:45Z", "took off", "484175", "-"], ["2001-09-09T01:48:21Z", "landed", "484175", "-"]], found)


def alarms(it):
    recipe = head_of("alarm.jq")[0]
    if it.needs("nc", "jq"):
        squawks = Receiver(in_turn(KLM, SQUAWKS_2000, 1.5, SQUAWKS_7700, 1.5, SQUAWKS_7700))
        terminal = begin(it, recipe.replace("PATH", "<(" + NC + ")"), squawks)
        it.expect("a squawk is reported at once", terminal.waits("^[-:0-9TZ]+ 4840d6 KLM1023 7700$"), terminal.said())
        time.sleep(2.5)
        it.expect("and once", terminal.said().count("7700") == 1 and is_now(terminal.said().split()[0]), terminal.said())
        stops(it, terminal)
        terminal = begin(it, recipe.replace("PATH", "<(" + NC + ")"), Receiver(in_turn(KLM, 1.5, EMERGENCY)))
        it.expect("an emergency without a squawk is, too", terminal.waits("^[-:0-9TZ]+ 4840d6 KLM1023 general$"), terminal.said())
        stops(it, terminal)


def hours(it):
    run, count = head_of("hours.jq")
    if it.needs("nc", "jq"):
        run = run.replace("60000", "1000").replace("--tick 1000", "--tick 100").replace("PATH", "<(" + NC + ")")
        terminal = begin(it, run, Receiver(in_turn(KLM, 1.2, OTHER)))
        it.expect("tables come", comes(lambda: "485020" in text_of(it, "day.json")))
        stops(it, terminal)
        terminal.type(count)
        it.expect("it counts them", terminal.waits("^....-..-..T..:00:00Z\t2\t2$"), terminal.said())


def the_page_of_dump1090(it):
    copy, link = it.recipe("cp -rL /usr/share/dump1090-mutability/html page"), it.recipe("ln -s /run/groundstation page/data")
    server = it.recipe("python3 -m http.server * page 8080")
    if it.needs("nc", "usr/share/dump1090-mutability/html"):
        (it.folder / "shown").mkdir()
        port, terminal = free_port(), begin(it, copy)
        terminal.type(link.replace("/run/groundstation", str(it.folder / "shown")))
        terminal.type(server.replace("8080", str(port)))
        run = begin(it, RUN + "--json shown <(" + NC + ")", Receiver(steady(KLM)))
        shows(it, run)

        def fetch(path):
            with urllib.request.urlopen("http://127.0.0.1:%d/%s" % (port, path), timeout=PATIENCE) as answer:
                return answer.read()
        it.expect("the page is there", b"<html" in fetch("gmap.html").lower())
        it.expect("its scripts are there", all(fetch(path) for path in ("script.js", "config.js")))
        shown = json.loads(fetch("data/aircraft.json"))
        it.expect("it gets the table", [line["hex"] for line in shown["aircraft"]] == ["4840d6"] and abs(shown["now"] - time.time()) < 5, shown)
        it.expect("it gets what the receiver is", json.loads(fetch("data/receiver.json"))["refresh"] == 1000)


def calls_of(unit, key):
    """The call of a line of the unit file, as systemd reads it: without the marks of a continued line, with % and $ once."""
    line = re.search(r"^%s=((?:.*\\\n)*.*)$" % key, unit.replace("%%", "%").replace("$$", "$"), re.M)[1]
    return shlex.split(line.replace("\\\n", " "))


def the_unit_file(it):
    """The command of the unit file, with a half day of three seconds."""
    unit = (TOP / "examples/groundstation.service").read_text()
    if it.needs("systemd-analyze"):
        verified = subprocess.run(["systemd-analyze", "verify", TOP / "examples/groundstation.service"], stderr=subprocess.PIPE, text=True)
        it.expect("systemd-analyze finds no fault", not verified.stderr.strip(), verified.stderr)
    if not it.needs("nc", "usr/bin/find"):
        return
    shown, kept = it.folder / "shown", it.folder / "kept"
    shown.mkdir()
    kept.mkdir()
    program, receiver = TOP / "crates/groundstation/out/groundstation", Receiver(steady(KLM))
    call = [word.replace("/usr/local/bin/groundstation", str(program)).replace("12h", "3").replace("30002", str(receiver.port))
            for word in calls_of(unit, "ExecStart")]
    for number in (1, 2):
        it.ends.append(Service(call, RUNTIME_DIRECTORY=str(shown), STATE_DIRECTORY=str(kept)))
        it.expect("start %d writes the table" % number, comes(lambda: "4840d6" in text_of(it, "shown/aircraft.json")))
        status, seconds = it.ends[-1].ends_by()
        it.expect("start %d ends after its time" % number, status == 0 and seconds > 2.9, (status, seconds))
        it.ends[-1].close()
        (shown / "aircraft.json").unlink()
        (shown / "stop").unlink()
    records = sorted(kept.glob("*.avr"))
    it.expect("each start has a record with its date", len(records) == 2
              and all(re.fullmatch(r"\d{8}-\d{6}\.avr", record.name) for record in records), records)
    it.expect("a replay shows it", all("4840d6" in str(logged(it, "movements.jq", record.read_text())) for record in records))
    os.utime(records[0], (time.time() - 9 * 86400,) * 2)
    subprocess.run([word.replace("${STATE_DIRECTORY}", str(kept)) for word in calls_of(unit, "ExecStartPre")], check=True)
    it.expect("a record of more than a week is removed, and no other", sorted(kept.glob("*.avr")) == records[1:])
