#!/usr/bin/env python3
"""Makes the pictures of the documents from the lines of the tool: pictures.py FOLDER, at the top of the repository."""
import glob
import html
import os
import subprocess
import sys

sys.dont_write_bytecode = True
sys.path.append("python/sedgechisel")
from _ladder import ON_BOARD, Picture, flags_of, session  # noqa: E402
from items import text_of  # noqa: E402
from meanings import on_board  # noqa: E402

PACKETS = [f"1005C0{k:02X}0000{0xAA + k:02X}" for k in range(4)]


def tool(words, octets):
    ran = subprocess.run(["./tctool", *words, "-"], input=octets, capture_output=True, check=True)
    return ran.stdout.decode().splitlines()


def play(script):
    """The lines of a script that are answered, each with its answer."""
    asked = [it for it in script.splitlines() if it and not it.startswith(("#", "config "))]
    answers = tool(["sim"], script.encode())
    assert len(asked) == len(answers), script
    return list(zip(asked, answers))


def frame_name(octets):
    """A telecommand frame as `tctool tc` shows it: 'AD 0', 'BD', 'BC unlock'."""
    [line] = tool(["tc", "--check"], octets)
    words = line.split()
    fields = dict(it.split("=") for it in words if "=" in it)
    return " ".join([words[1], *([fields["n"]] if "n" in fields else []), *(it for it in words[2:] if "=" not in it)])


class Drawn(Picture):
    def box(self, x, y, width, lines):
        """A box with its upper edge's middle at x and y, and its lines; the first is its name."""
        height = 12 + 17 * len(lines)
        self.add("rect", x=x - width / 2, y=y, width=width, height=height, rx=8, fill="#eef3f8", stroke="#345")
        for k, line in enumerate(lines):
            self.text(x, y + 20 + 17 * k, line, **({"class": "name"} if k == 0 else {}))
        return height

    def write(self, file):
        put(file, self.svg())


def put(file, text):
    with open(file, "w", encoding="utf-8") as it:
        it.write(text)


def ladder(script, file):
    """What went up and down in a script, row by row."""
    put(file, session(os.path.basename(script), play(text_of(script)), frame_name))


def way(file):
    """The way of a packet up, and of the report on it down."""
    script = f"init none\nsubmit 4 {PACKETS[0]}\nsend\nup deliver\ntake\nreport\ndown deliver\nshow\n"
    _, _, (_, sent), (_, came), (_, taken), (_, report), (_, heard), (_, shown) = play(script)
    octets = sent.split()[1]
    [told] = tool(["tc", "--check"], bytes.fromhex(octets))
    fields = dict(it.split("=") for it in told.split() if "=" in it)
    header = f"{64 * int(fields['seg']) + int(fields['map']):02X}"
    assert octets[8:-4] == f"{int(fields['n']):02X}{header}{fields['data']}" and fields["data"] == PACKETS[0]
    picture = Drawn(940, 560, "The way of a packet up, and of the report down")
    picture.text(235, 26, "the ground (nodes::Ground)", **{"class": "name"})
    picture.text(705, 26, "the spacecraft (nodes::Spacecraft)", **{"class": "name"})
    columns = (
        (235, (
            (f"submit on MAP {fields['map']}", f"packet {PACKETS[0]}", "nodes, space_packet"),
            ("cut into segments", f"header {header}, then the packet", "map_service"),
            ("FOP-1", f"N(S) = {fields['n']}, kept until acknowledged", "cop1"),
            ("frame with its FECF", octets, "tc_frame"),
        )),
        (705, (
            ("take", taken, "nodes"),
            ("assemble the segments", f"{taken.split()[2]} is whole", "map_service"),
            ("FARM-1", came, "cop1"),
            ("frame read", told[2:].split(" data")[0], "tc_frame"),
        )),
    )
    for x, boxes in columns:
        for k, lines in enumerate(boxes):
            picture.box(x, 44 + 92 * k, 400, lines)
            if k:
                above, below = 44 + 92 * k - 29, 44 + 92 * k
                start, end = (above, below) if x == 235 else (below, above)
                picture.arrow(x, start, x, end)
    picture.arrow(435, 352, 505, 352)
    picture.text(470, 344, "up")
    way_down(picture, report.split()[1], heard, dict(it.split("=") for it in shown.split()))
    picture.write(file)


def way_down(picture, word, heard, records):
    """The way of a report down, from FARM-1 to FOP-1."""
    picture.box(705, 452, 400, ("telemetry frame (TmBuilder)", f"control word {word}: value {flags_of(bytes.fromhex(word))[1]}", "tm_link, clcw"))
    picture.arrow(905, 260, 917, 260, tip=False)
    picture.arrow(917, 260, 917, 484, tip=False)
    picture.arrow(917, 484, 905, 484)
    picture.text(705, 424, "the report: V(R) and the flags")
    picture.arrow(505, 492, 435, 492)
    picture.text(470, 484, "down")
    picture.box(235, 452, 400, ("telemetry frame read (Extractor)", f"{heard.split(' ')[0]}; FOP-1: state {records['state']}, outstanding {records['outstanding']}", "tm_link, clcw, cop1"))
    picture.arrow(35, 484, 23, 484, tip=False)
    picture.arrow(23, 484, 23, 260, tip=False)
    picture.arrow(23, 260, 35, 260)
    picture.text(235, 424, "what is acknowledged leaves the sent queue")


def edge(x, y, ux, uy, sx, sy):
    """Where the line from a state's middle, moved aside, leaves its box."""
    across = (86 * (1 if ux > 0 else -1) - sx) / ux if ux else 1e9
    along = (30 * (1 if uy > 0 else -1) - sy) / uy if uy else 1e9
    k = min(across, along)
    return x + sx + ux * k, y + sy + uy * k


def move(picture, start, end, labels, bend):
    """An arrow between two states, with what was said."""
    (x0, y0, _), (x1, y1, _) = start, end
    length = ((x1 - x0) ** 2 + (y1 - y0) ** 2) ** 0.5
    ux, uy = (x1 - x0) / length, (y1 - y0) / length
    sx, sy = (14 * uy, -14 * ux) if bend else (0, 0)
    x, y = picture.arrow(*edge(x0, y0, ux, uy, sx, sy), *edge(x1, y1, -ux, -uy, sx, sy), bend)
    for k, label in enumerate(labels):
        picture.text(x + 0.2 * sx, y + 4 + 16 * (k - (len(labels) - 1) / 2), label)


def states(file, title, size, places, moves, notes):
    """States, and the moves between them that were seen: from, to, and what was said."""
    picture = Drawn(*size, title)
    drawn = {}
    for start, end, label in moves:
        seen = drawn.setdefault((start, end), [])
        seen.extend([label] if label not in seen else [])
    for (start, end), labels in drawn.items():
        if start != end:
            move(picture, places[start], places[end], labels, 46 if (end, start) in drawn else 0)
    for state, (x, y, about) in places.items():
        own = drawn.get((state, state), [])
        picture.add("rect", x=x - 86, y=y - 30, width=172, height=60, rx=26, fill="#eef3f8", stroke="#345")
        picture.text(x, y - 4, state, **{"class": "name"})
        picture.text(x, y + 14, about)
        if own:
            picture.text(x, y + 50 if y > size[1] / 2 else y - 40, f"stays: {', '.join(own)}")
    for k, note in enumerate(notes):
        picture.text(size[0] / 2, size[1] - 14 - 18 * (len(notes) - 1 - k), note)
    picture.write(file)


def lines(*parts):
    return "".join(f"{it}\n" for part in parts for it in part.split("; "))


SUBMIT = "; ".join(f"submit 4 {it}" for it in PACKETS[:2])
FULL = f"config ready_slots 1; config width 10; config window 5; init none; {SUBMIT}; send; send; up deliver; up deliver"
LOCKED = f"config width 10; config window 5; vs 100; init none; submit 4 {PACKETS[0]}; send; up deliver"
AGAIN = "terminate; {}; send; up deliver"


def farm_move(setup, event):
    """The receiver's state before and after the last line, by its reports, and what that line was answered."""
    def state(word):
        names, _ = flags_of(bytes.fromhex(word.split()[1]))
        return "Lockout" if "lockout" in names else "Wait" if "wait" in names else "Open"

    *front, last = event.split("; ")
    whole = play(lines(setup, *front, "report", last, "report"))
    words = whole[-2][1].split()
    labels = {"AD": words[2:3], "BC": ["BC", *words[1:2], *["x"] * len(words[2:])], "packet": ["a packet taken"]}
    label = " ".join(labels[words[0]])
    return state(whole[-3][1]), state(whole[-1][1]), label


def farm(file):
    moves = [
        farm_move("init none", f"submit 4 {PACKETS[0]}; send; up deliver"),
        farm_move(f"init none; {SUBMIT}; send; send; up lose", "up deliver"),
        farm_move(f"init none; submit 4 {PACKETS[0]}; send; up deliver; terminate; vs 0; init none; submit 4 {PACKETS[1]}; send", "up deliver"),
        farm_move(FULL.removesuffix("; up deliver"), "up deliver"),
        farm_move(FULL, "take"),
        farm_move(FULL, AGAIN.format("init unlock")),
        farm_move(FULL, AGAIN.format("init set 1")),
        farm_move(f"{FULL}; terminate; vs 1; init none; submit 4 {PACKETS[1]}; send", "up deliver"),
        farm_move(f"{FULL}; terminate; vs 100; init none; submit 4 {PACKETS[2]}; send", "up deliver"),
        farm_move(LOCKED.removesuffix("; up deliver"), "up deliver"),
        farm_move(f"{LOCKED}; terminate; vs 0; init none; submit 4 {PACKETS[1]}; send", "up deliver"),
        farm_move(LOCKED, AGAIN.format("init set 0")),
        farm_move(LOCKED, AGAIN.format("init unlock")),
    ]
    places = {"Open": (170, 90, "frames accepted"), "Wait": (650, 90, "no room on board"), "Lockout": (410, 320, "Unlock alone helps")}
    states(file, "The states of FARM-1", (840, 400), places, moves, [])


def fop_move(setup, event):
    """The sender's state before and after the last line, and what that line was, or what report it brought."""
    *front, last = event.split("; ")
    whole = play(lines(setup, *front, "show", last, "show") if setup else lines(*front, "show", last, "show"))
    state = [dict(it.split("=") for it in whole[at][1].split())["state"] for at in (-3, -1)]
    label, answer = last, whole[-2][1]
    if last == "down deliver":
        reports = [said for asked, said in whole if asked == "report"]
        gone = [asked for asked, _ in whole if asked.startswith("down ")]
        names, _ = flags_of(bytes.fromhex(reports[len(gone) - 1].split()[1]))
        label = " and ".join(names) or "no flags"
    if "alert" in answer:
        label = answer.split("alert ")[1]
    return state[0], state[1], label.replace("init set 0", "init set X")


def fop(file):
    """The states of FOP-1: each arrow is taken by a script; so is each alert to S6."""
    asked = f"init none; {SUBMIT}; send; send; up lose; up deliver; report"
    full = f"config ready_slots 1; config timer 1; init none; {SUBMIT}; send; send; up deliver; up deliver; report"
    both = f"config ready_slots 1; init none; {SUBMIT}; send; send; up lose; up deliver; report; down deliver; send; send; up deliver; up deliver; report"
    late = (f"config ready_slots 1; config timer 1; init none; {SUBMIT}; send; send; up deliver; tick; send; send; up deliver; report; take; "
            "up deliver; up deliver; report; down deliver")
    moves = [
        fop_move("", "init none"),
        fop_move("", "init check"),
        fop_move("", "init unlock"),
        fop_move("", "init set 0"),
        fop_move("init check; report", "down deliver"),
        fop_move("init unlock; send; up deliver; report", "down deliver"),
        fop_move(asked, "down deliver"),
        fop_move(full, "down deliver"),
        fop_move(f"{asked}; down deliver; send; send; up deliver; up deliver; report", "down deliver"),
        fop_move(both, "down deliver"),
        fop_move(f"{full}; down deliver; take; report", "down deliver"),
        fop_move(late, "down deliver"),
    ]
    ends = [
        *(fop_move(it, "terminate") for it in ("init none", f"{asked}; down deliver", f"{full}; down deliver", "init check", "init unlock")),
        fop_move(f"config limit 1; config timer 1; init none; submit 4 {PACKETS[0]}; send", "tick"),
        fop_move(f"config limit 1; {asked}", "down deliver"),
        fop_move("vs 5; init check; report", "down deliver"),
        fop_move(f"{asked}; terminate; vs 0; init check", "down deliver"),
        fop_move(f"{LOCKED}; terminate; vs 0; init check; report", "down deliver"),
    ]
    draw_fop(file, moves, ends)


def draw_fop(file, moves, ends):
    assert all(end == "S6" for _, end, _ in ends), ends
    given_up = sorted({start for start, _, _ in ends})
    names = list(dict.fromkeys(label for *_, label in ends))
    places = {
        "S6": (460, 60, "Initial"),
        "S4": (130, 180, "Initialising, check"),
        "S5": (790, 180, "Initialising, BC"),
        "S1": (460, 300, "Active"),
        "S2": (170, 480, "Retransmit"),
        "S3": (750, 480, "Retransmit, wait"),
    }
    notes = [f"From each of {', '.join(given_up)} to S6 by an alert; seen: {', '.join(names)}", "The words at the arrows from S1 to S5 are the flags of the report that came"]
    states(file, "The states of FOP-1", (920, 600), places, moves, notes)


def main(folder):
    assert ON_BOARD == {name.lower().replace("_", "") for name in on_board(text_of("c/include/sedgechisel_nodes.h"))}
    os.makedirs(folder, exist_ok=True)
    way(f"{folder}/way.svg")
    farm(f"{folder}/farm.svg")
    fop(f"{folder}/fop.svg")
    for script in sorted(glob.glob("examples/*.script")):
        ladder(script, f"{folder}/{os.path.basename(script).removesuffix('.script')}.svg")


if __name__ == "__main__":
    main(sys.argv[1])
