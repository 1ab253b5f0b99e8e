"""Ladders, and the scripts and captures that they are drawn of: the lines are those of rows/sim, the pictures those
that tools/pictures.py draws of what tctool writes, and each CLCW of a session is drawn no later than it was sent."""
import os
import re
import subprocess
import sys
import tempfile

TOP = os.path.dirname(os.path.dirname(os.path.dirname(os.path.realpath(__file__))))
sys.path.append(f"{TOP}/tools")

from row import rows


def octets_of(file):
    with open(file, "rb") as it:
        return it.read()


def ladder(*words):
    """The status of the command, what it writes, and what it says."""
    ran = subprocess.run([sys.executable, "-B", "-m", "sedgechisel", "ladder", *words], capture_output=True, text=True,
                         env={**os.environ, "PYTHONPATH": sys.path[0]}, cwd=TOP)
    return ran.returncode, ran.stdout, ran.stderr


def words_in(drawn):
    """The words of a picture, row by row, but for the names of the ends."""
    return re.findall(r"<text[^>]*>([^<]*)<", drawn)[2:]


def lines_of_rows(it):
    """The package answers the script of each row as the row has it, or refuses it by the line or field named there."""
    from sedgechisel import _script
    played = refused = 0
    for row in rows(["rows/sim"]):
        if row.words != [["sim", "-"]]:
            continue
        for octets, written in row.runs:
            try:
                answers = "".join(f"{answer}\n" for _, answer in _script.play(octets.decode("latin-1")))
            except (ValueError, it.ConfigFault) as error:
                line, field = re.match(r"line (\d+)", str(error)), str(error).split(" ")[1].rstrip(":")
                said = f"line {line[1]}: unreadable" if line else f"config out of range: {field}"
                assert row.status == 1 and said in row.error, (row.name, str(error))
                refused += 1
            else:
                found = answers.encode().splitlines()
                is_so = {*found} >= {*row.has} if row.has else found == written.splitlines()
                assert row.status == 0 and is_so, row.name
                played += 1
    assert played > 20 and refused > 20, (played, refused)


def ladders_of_scripts(it):
    """The ladder of each example is its picture in docs/pictures; with --from the rows before are left out."""
    for file in sorted(os.listdir(f"{TOP}/examples")):
        if file.endswith(".script"):
            drawn = ladder(f"examples/{file}")
            wanted = octets_of(f"{TOP}/docs/pictures/{file.removesuffix('.script')}.svg").decode()
            assert drawn == (0, wanted, ""), (file, drawn)
    _, whole, _ = ladder("examples/lost_frame.script")
    _, last, _ = ladder("--from", "19", "examples/lost_frame.script")
    assert words_in(last) == words_in(whole)[-len(words_in(last)):] and 0 < len(words_in(last)) < 10, words_in(last)


def session_of(seed):
    """The captures of a random session: frames, CLCWs, and how many frames were sent before each."""
    from sedgechisel import _script
    command = [f"{TOP}/tests/session/script", f"{seed}", "1000"]
    ran = subprocess.run(command, capture_output=True, text=True, check=True)
    up, down, before = [], [], []
    for _, answer in _script.play(ran.stdout):
        word, _, digits = answer.partition(" ")
        if word == "sent":
            up.append(bytes.fromhex(digits))
        if word == "report":
            down.append(bytes.fromhex(digits))
            before.append(len(up))
    return up, down, before


def order_of_captures(it):
    """Each CLCW of a session is drawn after the frames that it follows from, and no later than it was sent."""
    from sedgechisel import _captures
    for seed in range(8):
        up, down, before = session_of(seed)
        records = _captures.records_of(b"".join(up), b"".join(down), checked=True)
        assert sum(one.is_up for one in records) == len(up) and not any("no cause" in one.told for one in records)
        count, seen = 0, 0
        for one in records:
            numbers = [] if one.is_up else [int(number) for number in re.findall(r"\d+", one.told.split(":")[0])]
            count += one.is_up
            for number in range(seen, numbers[-1] if numbers else seen):
                assert count <= before[number], (seed, number)
                seen += 1
        assert seen == len(down)


def ladders_of_captures(it):
    """Two captures are drawn with CLCWs or telemetry frames, of all channels or of one. A CLCW that follows from no
    frame says so."""
    frames = [it.TcFrame(scid=1, vcid=2, kind=it.Kind.AD, n=k, flags=3, map=4).encode(b"data") for k in (0, 1, 2, 1, 2)]
    other = it.TcFrame(scid=1, vcid=3, kind=it.Kind.BD, flags=1, map=5).encode(b"more")
    words = [it.Clcw(vcid=2, value=value, flags=flags) for value, flags in ((0, 0), (1, 8), (1, 8), (3, 0), (9, 0))]
    builder = it.TmBuilder(scid=1, vcid=0, length=20)
    telemetry = b"".join(builder.build(word.encode()) for word in words)
    wanted = [
        "value 0", "CLCW 1: 01080000", "AD 0", "frame 1: MAP 4, 4 octets", "AD 1", "frame 2: MAP 4, 4 octets", "AD 2",
        "frame 3: MAP 4, 4 octets", "value 1 retransmit", "CLCW 2 to 3: 01080801", "AD 1", "frame 4: MAP 4, 4 octets",
        "AD 2", "frame 5: MAP 4, 4 octets", "value 3", "CLCW 4: 01080003", "value 9", "CLCW 5: 01080009, no cause"]
    with tempfile.TemporaryDirectory() as folder:
        def put(name, octets):
            with open(f"{folder}/{name}", "wb") as file:
                file.write(octets)
            return f"{folder}/{name}"

        up, both = put("up.bin", b"".join(frames)), put("both.bin", b"".join([*frames[:3], other, *frames[3:]]))
        down, tm = put("down.bin", b"".join(word.encode() for word in words)), put("tm.bin", telemetry)
        for given in ((up, down), ("--length", "20", up, tm), ("--scid", "1", "--vcid", "2", both, down),
                      ("--length", "20", "--scid", "1", "--vcid", "2", both, tm)):
            status, drawn, said = ladder("--check", *given)
            assert (status, said, words_in(drawn)[:-1]) == (0, "", wanted), (given, words_in(drawn))
            assert words_in(drawn)[-1].startswith("Captures have no times: ")
        _, drawn, _ = ladder("--check", both, down)
        assert "frame 4: MAP 5, 4 octets, first" in words_in(drawn)
        damaged = put("damaged.bin", frames[0][:-1] + b"?" + frames[1] + b"\0")
        _, drawn, _ = ladder("--check", damaged, put("words.bin", b"\xff\0\0\0\1"))
        assert [one for one in words_in(drawn) if one.startswith("invalid")] == [
            "invalid 1 Kind", "invalid 254 WrongCount", "invalid 6 Check", "invalid 1 Short"], words_in(drawn)


def ladders_that_are_refused(it):
    """What is no script, cannot be read or is wrongly asked is refused by a line, and nothing is written."""
    rows_of = (
        (1, "is not text, so it is not a script", "docs/pictures/page.png"),
        (1, "line 1 is unreadable: '/*", "c/include/sedgechisel.h"),
        (3, "cannot read /nowhere: No such file", "/nowhere"), (3, "cannot read docs: Is a directory", "docs"),
        (2, "length: 3 is not in 16 to 2048", "--length", "3", "examples/one_frame.bin", "examples/one_report.bin"),
        (2, "vcid: 64 is not in 0 to 63", "--vcid", "64", "examples/one_frame.bin", "examples/reports.bin"))
    for status, text, *words in rows_of:
        found, drawn, said = ladder(*words)
        assert (found, drawn, said.count("\n")) == (status, "", 1) and said.startswith("sedgechisel: "), said
        assert text in said, said
    for words in ([], ["--vcid", "2", "examples/alert.script"], ["--from", "0", "examples/alert.script"]):
        status, drawn, said = ladder(*words)
        assert (status, drawn) == (2, "") and "error: " in said and "Traceback" not in said, said


TESTS = (lines_of_rows, ladders_of_scripts, order_of_captures, ladders_of_captures, ladders_that_are_refused)
