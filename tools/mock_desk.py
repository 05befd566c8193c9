#!/usr/bin/env python3
"""Serves the desk's page over a mock desk: the routes of docs/manual/smsd.md from a state in memory, by simple rules.

usage: tools/mock_desk.py PORT [--state FILE] [--load] [--without ROUTE[,ROUTE..]]

The page's three files are read anew for each question, so who changes them sees it at once. With a FILE the state is
kept there over an end; --load begins with 1,024 volumes and 20,000 data sets; a ROUTE, as answers, classify, check,
deck, explain or tracks (of a volume), is one that this desk doesn't have. What it answers shows the forms of
the answers, and not the rules of the desk: its routines are read line by line, and a volume grants from its first gap.
"""
import http.server
import json
import os
import pickle
import re
import sys
import tomllib
from urllib.parse import unquote

from desk_page import read_file

FILES = {
    "/": ("markup", "text/html; charset=utf-8"),
    "/desk.css": ("style", "text/css; charset=utf-8"),
    "/desk.js": ("script", "text/javascript; charset=utf-8"),
}
NO_SNIFFING = ("X-Content-Type-Options", "nosniff")
POLICY = "default-src 'self'; frame-ancestors 'none'; base-uri 'none'; form-action 'none'"
HEADERS = {
    "text/html; charset=utf-8": (NO_SNIFFING, ("Content-Security-Policy", POLICY)),
    "text/css; charset=utf-8": (NO_SNIFFING,),
    "text/javascript; charset=utf-8": (NO_SNIFFING,),
}
DEVICES = {"3390-3": 50085, "3390-9": 150255}
STATUSES = {"ENABLE": "ENABLE", "DISABLE": "DISALL", "DISABLE-NEW": "DISNEW", "QUIESCE": "QUIALL", "QUIESCE-NEW": "QUINEW"}
KINDS = {"DATACLAS": "dataclass", "STORCLAS": "storclass", "MGMTCLAS": "mgmtclass", "STORGRP": "storgroup"}
BORDER = 982800
PIECES_SHOWN = 200


class Fault(Exception):
    pass


class Deck:
    """A deck's storage groups, volumes, classes and routines, or a Fault with what R21 shows of it."""

    def __init__(self, text):
        self.text = text
        try:
            made = tomllib.loads(text)
        except tomllib.TOMLDecodeError as why:
            raise Fault("K1") from why
        for key in sorted(made):
            if key not in ("version", "system", "sysplex", "dataclass", "storclass", "mgmtclass", "storgroup", "routine"):
                raise Fault(f"K2 {key}")
        if "version" not in made:
            raise Fault("K3 version")
        self.classes = {kind: sorted(made.get(kind, {})) for kind in ("dataclass", "storclass", "mgmtclass")}
        self.groups, self.volumes = {}, {}
        for name, group in sorted(made.get("storgroup", {}).items()):
            self.read_group(name, group)
        self.routines = made.get("routine", {})
        for kind, key in KINDS.items():
            self.check_routine(kind, self.routines.get(key, ""))

    def read_group(self, name, group):
        high = group.get("high", 85)
        if not isinstance(high, int) or not 1 <= high <= 100:
            raise Fault(f"K4 storgroup.{name}.high")
        self.groups[name] = {"high": high, "low": group.get("low", 0), "overflow": group.get("overflow", False)}
        for volser, volume in sorted(group.get("volume", {}).items()):
            tracks = volume.get("tracks") or volume.get("cylinders", 0) * 15 or DEVICES.get(volume.get("device"))
            if not tracks:
                raise Fault(f"K3 storgroup.{name}.volume.{volser}.device")
            if volser in self.volumes:
                raise Fault(f"K6 {volser}")
            self.volumes[volser] = {"group": name, "capacity": tracks, "status": volume.get("status", "ENABLE")}

    def check_routine(self, kind, text):
        tokens = re.findall(r"/\*.*?\*/|(&\w+|'[^']*'|[\w.%*#@$-]+|[=(),])", text, re.S)
        tokens = [token for token in tokens if token]
        for at, token in enumerate(tokens):
            if token == "SET" and tokens[at + 2: at + 3] != ["="]:
                raise Fault(f"K7 {kind} P1 {at + 2}")
            if token == "SET":
                self.check_name(kind, tokens[at + 3].strip("'"))

    def check_name(self, kind, name):
        named = self.groups if kind == "STORGRP" else self.classes[KINDS[kind]]
        if name and not name.startswith("&") and name not in named:
            raise Fault(f"K8 {kind} {name}")


class Routines:
    """Runs the routines of a deck for a request, line by line, and tells what happened as smsc explain does."""

    def __init__(self, deck, job, dsn, operands):
        self.deck, self.events, self.lines = deck, [], []
        self.values = {"DATACLAS": operands.get("DATACLAS", ""), "STORCLAS": operands.get("STORCLAS", ""),
                       "MGMTCLAS": operands.get("MGMTCLAS", ""), "STORGRP": ""}
        self.inputs = {"JOB": job, "DSN": dsn, "HLQ": dsn.split(".")[0], "LLQ": dsn.split(".")[-1],
                       "UNIT": operands.get("UNIT", ""), "PGM": operands.get("PGM", ""), "USER": operands.get("USER", "")}

    def outcome(self):
        for kind, key in KINDS.items():
            if kind in ("MGMTCLAS", "STORGRP") and not self.values["STORCLAS"]:
                return "UNMANAGED"
            if key in self.deck.routines:
                self.run(kind, self.deck.routines[key])
        if not self.values["STORGRP"]:
            return "NO GROUP"
        return f"CLASSES {self.told()}"

    def told(self):
        return " ".join(self.values[kind] or "-" for kind in KINDS)

    def held(self):
        groups = self.values["STORGRP"].replace(",", " ")
        return " ".join([*(self.values[kind] or "-" for kind in list(KINDS)[:3]), *groups.split()])

    def run(self, kind, text):
        self.events.append(f"{kind} BEGIN {self.held()}")
        taken = None
        for at, line in enumerate(text.split("\n"), 1):
            word = (line.split() or [""])[0]
            if word in ("SELECT", "FILTLIST"):
                taken = False if word == "SELECT" else taken
                self.tell(at, line, word)
            elif word == "WHEN" and not taken:
                taken = self.compares(at, line)
                if taken:
                    self.tell(at, line, "WHEN", " TAKEN")
                    self.does(kind, at, line)
            elif word == "IF":
                self.tell(at, line, "IF")
                if self.compares(at, line):
                    self.does(kind, at, line)
            elif word == "OTHERWISE" and not taken or word in ("SET", "WRITE"):
                self.does(kind, at, line)
        self.events.append(f"{kind} END {self.held()}")

    def tell(self, at, line, word, more=""):
        self.events.append(f"  {at}:{line.index(word) + 1} {word}{more}")

    def compares(self, at, line):
        found = re.search(r"&(\w+) *(=|EQ) *('([^']*)'|[\w.%*]+)", line)
        held = self.inputs.get(found[1], self.values.get(found[1], ""))
        wanted = found[4] if found[4] is not None else found[3]
        mask = re.escape(wanted).replace(r"\*\*", ".*").replace(r"\*", "[^.]*").replace("%", ".")
        holds = held == wanted if found[4] is not None else re.fullmatch(mask, held) is not None
        self.events.append(f"  {at}:{found.start(3) + 1} &{found[1]} EQ {found[3]} {'TRUE' if holds else 'FALSE'} '{held}'")
        return holds

    def does(self, kind, at, line):
        put = re.search(r"SET &(\w+) = '([^']*)'((?:,'[^']*')*)", line)
        if put:
            self.tell(at, line, "SET")
            self.values[kind] = (put[2] + put[3]).replace("'", "")
            self.events.append(f"  {at}:{put.start(1)} &{kind} = '{put[2]}'")
        wrote = re.search(r"WRITE '([^']*)'( &(\w+))?", line)
        if wrote:
            self.tell(at, line, "WRITE")
            text = wrote[1] + (self.inputs.get(wrote[3], "") if wrote[3] else "")
            self.events.append(f"  WROTE '{text}'")
            self.lines.append(f"  WRITE {kind} {text}")


class Desk:
    def __init__(self):
        self.deck, self.activations, self.entries, self.sets, self.kept = None, 0, [], {}, {}

    def answer(self, job, number, op, name, lines):
        """Enters what a request is answered, and gives the body of the answer."""
        place = len(self.entries) + 1
        code = lines[0].split()[0]
        body = {"code": code, "first": place, "lines": lines, "place": place}
        self.entries.append({**body, "job": job, "number": number, "asked": op, "name": name})
        self.kept[job, number] = (op, name, body)
        return body

    def repeated(self, job, number, op, name):
        kept = self.kept.get((job, number))
        if kept is None:
            return None
        place = len(self.entries) + 1
        lines = kept[2]["lines"] if kept[:2] == (op, name) else [f"R10 REUSED NUMBER {kept[2]['place']}"]
        first = kept[2]["place"] if kept[:2] == (op, name) else place
        body = {"code": lines[0].split()[0], "first": first, "lines": lines, "place": place}
        self.entries.append({**body, "job": job, "number": number, "asked": op, "name": name})
        return body

    def lying(self, volser):
        found = [{"dsn": made["dsn"], "start": it["start"], "tracks": it["tracks"]}
                 for made in self.sets.values() for it in made["extents"] if it["volser"] == volser]
        return sorted(found, key=lambda it: it["start"])

    def gaps(self, volser, extents, start=0):
        capacity = self.deck.volumes[volser]["capacity"]
        ends = [(it["start"], it["start"] + it["tracks"]) for it in extents] + [(capacity, capacity)]
        found, at = [], start
        for first, end in ends:
            border = [BORDER] if at < BORDER < first else []
            for edge in [*border, first]:
                if edge > at:
                    found.append({"start": at, "tracks": edge - at})
                at = max(at, edge)
            at = max(at, end)
        return found

    def verdict(self, text):
        """What an activation of the deck would be answered, and the deck."""
        try:
            deck = Deck(text)
        except Fault as fault:
            return f"R21 DECK {fault}", None
        for volser in sorted({it["volser"] for made in self.sets.values() for it in made["extents"]}):
            if volser not in deck.volumes or deck.volumes[volser]["capacity"] < self.deck.volumes[volser]["capacity"]:
                return f"R22 VOLUME IN USE {volser}", None
        return f"A04 ACTIVATED {self.activations + 1}", deck

    def activate(self, number, text):
        before = self.repeated("SMSADMIN", number, "ACTIVATE", None)
        if before:
            return before
        line, deck = self.verdict(text)
        if deck:
            for volser, volume in deck.volumes.items():
                if self.deck and volser in self.deck.volumes:
                    volume["status"] = self.deck.volumes[volser]["status"]
            self.deck, self.activations = deck, self.activations + 1
        return self.answer("SMSADMIN", number, "ACTIVATE", None, [line])

    def alloc(self, job, number, dsn, operands):
        return self.repeated(job, number, "ALLOC", dsn) or self.answer(job, number, "ALLOC", dsn, self.grant(job, dsn, operands))

    def grant(self, job, dsn, operands):
        if self.deck is None:
            return ["R12 NO CONFIGURATION"]
        if dsn in self.sets:
            return ["R13 NAME IN USE"]
        run = Routines(self.deck, job, dsn, operands)
        outcome = run.outcome()
        if outcome == "UNMANAGED":
            return ["A01 NOT MANAGED", *run.lines]
        if outcome == "NO GROUP":
            return ["R17 NO STORAGE GROUP", *run.lines]
        found = re.fullmatch(r"\((TRK|CYL),\(?(\d+),?(\d+)?\)?\)", operands.get("SPACE", ""))
        if not found:
            return ["R16 NO QUANTITY", *run.lines]
        unit = 15 if found[1] == "CYL" else 1
        groups = run.values["STORGRP"].split(",")
        extent = self.first_gap(groups, int(found[2]) * unit, operands.get("EATTR") == "OPT")
        if extent is None:
            return ["R18 NO VOLUME", *run.lines]
        group = self.deck.volumes[extent["volser"]]["group"]
        values = [run.values[kind] or None for kind in ("DATACLAS", "STORCLAS", "MGMTCLAS")]
        self.sets[dsn] = {
            "dsn": dsn, "dataclas": values[0], "storclas": values[1], "mgmtclas": values[2], "group": group,
            "day": int(operands.get("DAY", 0)), "retpd": int(operands["RETPD"]) if "RETPD" in operands else None,
            "unit": found[1], "secondary": int(found[3] or 0) * unit, "volumes": int(operands.get("VOLCNT", 1)),
            "eattr": operands.get("EATTR", "NO"), "used": 0, "extents": [extent]}
        told = " ".join(value or "-" for value in [*values, group])
        return ["A00 GRANTED", f"  CLASS {told}", f"  EXTENT {extent['volser']} {extent['start']} {extent['tracks']}", *run.lines]

    def first_gap(self, groups, tracks, may_lie_behind):
        rows = [(volser, row) for volser, row in self.deck.volumes.items() if row["group"] in groups]
        turn = len(self.sets) % max(1, len(rows))
        for volser, row in rows[turn:] + rows[:turn]:
            if row["status"] in ("DISALL", "DISNEW"):
                continue
            for gap in self.gaps(volser, self.lying(volser)):
                behind = gap["start"] >= BORDER
                need = -(-tracks // 315) * 315 if behind else tracks
                if behind == (may_lie_behind and row["capacity"] > BORDER and tracks >= 150) and gap["tracks"] >= need:
                    return {"volser": volser, "start": gap["start"], "tracks": need}
        return None

    def delete(self, job, number, dsn):
        if dsn not in self.sets:
            return self.answer(job, number, "DELETE", dsn, ["R19 NOT FOUND"])
        tracks = sum(it["tracks"] for it in self.sets.pop(dsn)["extents"])
        return self.answer(job, number, "DELETE", dsn, [f"A03 DELETED {tracks}"])

    def vary(self, number, volser, action):
        if self.deck is None or volser not in self.deck.volumes:
            return self.answer("SMSADMIN", number, "VARY", volser, ["R23 UNKNOWN NAME"])
        self.deck.volumes[volser]["status"] = STATUSES[action]
        return self.answer("SMSADMIN", number, "VARY", volser, [f"A05 VARIED {volser} {STATUSES[action]}"])

    def rows(self):
        used, extents = {}, {}
        for made in self.sets.values():
            for it in made["extents"]:
                used[it["volser"]] = used.get(it["volser"], 0) + it["tracks"]
                extents[it["volser"]] = extents.get(it["volser"], 0) + 1
        volumes = self.deck.volumes if self.deck else {}
        return [{"volser": volser, "group": row["group"], "status": row["status"], "capacity": row["capacity"],
                 "free": row["capacity"] - used.get(volser, 0), "extents": extents.get(volser, 0)}
                for volser, row in sorted(volumes.items())]

    def group_rows(self):
        rows = self.rows()
        for name, group in sorted(self.deck.groups.items() if self.deck else []):
            own = [row for row in rows if row["group"] == name]
            yield {"group": name, "volumes": len(own), "capacity": sum(row["capacity"] for row in own),
                   "free": sum(row["free"] for row in own), **group, "breakpoint": 10}

    def volume(self, volser, start, without):
        row = next((row for row in self.rows() if row["volser"] == volser), None)
        if row is None or "tracks" in without:
            return row
        extents = [it for it in self.lying(volser) if it["start"] + it["tracks"] > start]
        shown = extents[:PIECES_SHOWN]
        behind = extents[PIECES_SHOWN]["start"] if len(extents) > PIECES_SHOWN else None
        gaps = [it for it in self.gaps(volser, extents, start) if behind is None or it["start"] < behind]
        return {**row, "extents": shown, "gaps": gaps, "next": behind}

    def named(self, mask, after):
        pattern = re.escape(mask).replace(r"\*\*", "\0").replace(r"\*", "[^.]*").replace("%", "[^.]")
        pattern = pattern.replace(r"\.", r"\.").replace("\\.\0", r"(\..*)?").replace("\0", ".*")
        names = sorted(name for name in self.sets if name > after and re.fullmatch(pattern, name))
        return {"sets": [self.sets[name] for name in names[:200]], "after": names[199] if len(names) > 200 else None}


def loaded():
    """A desk with 1,024 volumes in four storage groups, and 20,000 data sets."""
    desk = Desk()
    lines = ["version = 1", "[storclass.SC1]", "[storclass.SC2]", "[mgmtclass.MC1]"]
    for group in range(4):
        lines.append(f"[storgroup.SG{group + 1}]\nhigh = {70 + 5 * group}\nlow = 40")
        lines += [f"[storgroup.SG{group + 1}.volume.V{group}{at:04}]\ntracks = {50085 if at % 3 else 1000}" for at in range(256)]
    desk.activate(1, "\n".join(lines))
    places = {volser: 0 for volser in desk.deck.volumes}
    order = [volser for volser in places if desk.deck.volumes[volser]["capacity"] > 2000]
    for at in range(20000):
        volser = order[(at * 7) % len(order)] if at % 3 else order[0]
        tracks = 1 + at % 5
        dsn = f"PAY{at % 40}.D{at // 200:04}.N{at:05}"
        start, places[volser] = places[volser], places[volser] + tracks + at % 2
        desk.sets[dsn] = {
            "dsn": dsn, "dataclas": None, "storclas": "SC1", "mgmtclas": "MC1", "group": desk.deck.volumes[volser]["group"],
            "day": at % 365, "retpd": None, "unit": "TRK", "secondary": 5, "volumes": 1, "eattr": "NO", "used": tracks // 2,
            "extents": [{"volser": volser, "start": start, "tracks": tracks}]}
    return desk


class Clerk(http.server.BaseHTTPRequestHandler):
    protocol_version = "HTTP/1.1"
    desk, state, without = None, None, ()

    def log_message(self, *_):
        pass

    def send(self, status, body, kind="application/json"):
        data = body if isinstance(body, bytes) else json.dumps(body, separators=(",", ":")).encode()
        self.send_response(status)
        for name, value in (("Content-Type", kind), *HEADERS.get(kind, ()), ("Content-Length", str(len(data)))):
            self.send_header(name, value)
        self.end_headers()
        self.wfile.write(data)

    def tell(self, body, error="no request and no page is asked so"):
        self.send(200, body) if body is not None else self.send(404, {"error": error})

    def has(self, word):
        return word not in self.without

    def do_GET(self):
        if self.path in FILES:
            name, kind = FILES[self.path]
            return self.send(200, read_file(name), kind)
        word, *parts = [unquote(part).upper() for part in self.path[1:].split("/")]
        return self.show(word.lower(), parts)

    def show(self, word, parts):
        desk = self.desk
        if word == "desk":
            active = desk.activations if desk.deck else None
            self.tell({"activations": active, "entries": len(desk.entries), "volumes": len(desk.rows())})
        elif word == "groups":
            self.tell({"groups": list(desk.group_rows())})
        elif word == "volumes":
            self.tell({"volumes": desk.rows()})
        elif word == "volume" and parts:
            start = int(parts[2]) if parts[1:2] == ["FROM"] else 0
            self.tell(desk.volume(parts[0], start, self.without), "no active volume has this serial")
        elif word == "sets":
            mask, after = (parts or ["**"])[0], parts[2] if parts[1:2] == ["AFTER"] else ""
            if not re.fullmatch(r"[A-Z0-9#@$%*.-]+", mask):
                return self.send(400, {"error": "this is no mask"})
            self.tell(desk.named(mask, after))
        elif word == "set" and parts:
            self.tell(desk.sets.get(parts[0]), "no data set of this name is catalogued")
        elif word == "answers" and self.has(word):
            names = ("place", "first", "job", "number", "code", "asked", "name")
            self.tell({"answers": [{name: entry[name] for name in names} for entry in desk.entries[:-201:-1]]})
        elif word == "deck" and self.has(word):
            self.tell({"deck": desk.deck.text if desk.deck else None})
        else:
            self.tell(None)

    def do_POST(self):
        text = self.rfile.read(int(self.headers.get("Content-Length", 0))).decode()
        path = [unquote(part).upper() for part in self.path[1:].split("/")]
        operands = {key.upper(): str(value).upper() for key, value in self.operands(text).items()}
        self.act(path, text, operands)
        if self.state:
            with open(self.state + ".new", "wb") as file:
                pickle.dump(self.desk, file)
            os.replace(self.state + ".new", self.state)

    def operands(self, text):
        return json.loads(text) if text.startswith("{") else {}

    def act(self, path, text, operands):
        desk = self.desk
        if path[0] in ("JOB", "CLASSIFY", "EXPLAIN") and not self.is_asked(path[1], path[-1]):
            self.send(400, {"error": "this isn't a request as the desk reads them"})
        elif path[0] == "JOB" and path[3:4] == ["ALLOC"]:
            self.tell(desk.alloc(path[1], int(path[2]), path[4], operands))
        elif path[0] == "JOB" and path[3:4] == ["DELETE"]:
            self.tell(desk.delete(path[1], int(path[2]), path[4]))
        elif path[0] == "ADMIN" and path[2:] == ["ACTIVATE"]:
            self.tell(desk.activate(int(path[1]), text))
        elif path[0] == "ADMIN" and path[2:4] == ["VARY", "VOLUME"]:
            self.tell(desk.vary(int(path[1]), path[4], path[5]))
        elif path[0] == "CHECK" and self.has("check"):
            line = desk.verdict(text)[0]
            self.tell({"code": line[:3], "lines": [] if line.startswith("A04") else [line]})
        elif path[0] in ("CLASSIFY", "EXPLAIN") and len(path) == 3 and self.has(path[0].lower()):
            self.classify(path, operands)
        else:
            self.tell(None)

    def is_asked(self, job, dsn):
        part = "[A-Z#@$][A-Z0-9#@$-]{0,7}"
        return re.fullmatch(part, job) and re.fullmatch(rf"{part}(\.{part})*", dsn)

    def classify(self, path, operands):
        if self.desk.deck is None:
            return self.send(404, {"error": "no configuration is active"})
        run = Routines(self.desk.deck, path[1], path[2], operands)
        outcome = run.outcome()
        self.tell({"outcome": outcome, "lines": run.lines} if path[0] == "CLASSIFY" else {"text": "\n".join([*run.events, ""])})


def main(words):
    without = words[words.index("--without") + 1].split(",") if "--without" in words else []
    state = words[words.index("--state") + 1] if "--state" in words else None
    desk = loaded() if "--load" in words else Desk()
    if state and os.path.exists(state):
        with open(state, "rb") as file:
            desk = pickle.load(file)
    Clerk.desk, Clerk.state, Clerk.without = desk, state, without
    http.server.ThreadingHTTPServer(("127.0.0.1", int(words[0])), Clerk).serve_forever()


if __name__ == "__main__":
    if len(sys.argv) < 2:
        sys.exit(__doc__)
    main(sys.argv[1:])
