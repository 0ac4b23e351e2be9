"""Ten small systems under test, each right and with one fault planted, and the shortest runs that show the fault, worked out by hand."""
import time
from typing import List, Sequence

from cspwatch_client.testing import Refused, does


class Small:
    """A system that answers at once, with what it has put out since it was last observed."""

    quiet = "0"
    outputs: Sequence[str] = ()
    script = ""
    shortest: Sequence[str] = ()
    """The shortest runs that fail where the fault is planted; there are several where clients or values are alike."""

    def __init__(self, planted):
        self.planted = planted
        self.out: List[str] = []

    def reset(self):
        self.out.clear()
        self.begin()

    def begin(self):
        """Has the system begin anew."""

    def observe(self, wait):
        seen = list(self.out)
        self.out.clear()
        return seen


class TooMany(Small):
    """A machine gives two drinks for the second coin."""

    script = "channel coin, drink\nP = coin -> drink -> P\n"
    outputs = ["drink"]
    shortest = ["E coin/E drink/E coin/E drink/E drink"]

    def begin(self):
        self.coins = 0

    @does("coin")
    def coin(self):
        self.coins += 1
        self.out += ["drink"] * (2 if self.planted and self.coins == 2 else 1)


class TooFew(TooMany):
    """It gives none for the second coin."""

    shortest = ["E coin/E drink/E coin/R drink"]

    @does("coin")
    def coin(self):
        self.coins += 1
        self.out += [] if self.planted and self.coins == 2 else ["drink"]


class WrongState(Small):
    """A bell rings when somebody knocks at an open door."""

    script = """channel open, close, knock, bell
P = knock -> bell -> P [] open -> OPEN
OPEN = close -> P [] knock -> OPEN
"""
    outputs = ["bell"]
    shortest = ["E open/E knock/E bell"]

    def begin(self):
        self.is_open = False

    @does("open")
    def open(self):
        self.set(True)

    @does("close")
    def close(self):
        self.set(False)

    @does("knock")
    def knock(self):
        if not self.is_open or self.planted:
            self.out.append("bell")

    def set(self, is_open):
        if is_open == self.is_open:
            raise Refused
        self.is_open = is_open


class NeverComes(Small):
    """A lamp never goes out."""

    script = "channel press, on, off\nP = press -> on -> press -> off -> P\n"
    outputs = ["on", "off"]
    shortest = ["E press/E on/E press/R on off"]

    def begin(self):
        self.lit = False

    @does("press")
    def press(self):
        self.lit = not self.lit
        if self.lit or not self.planted:
            self.out.append("on" if self.lit else "off")


class WronglyRefused(Small):
    """A buffer of two places refuses the second."""

    script = "channel put, get\nP = put -> ONE\nONE = put -> get -> ONE [] get -> P\n"
    shortest = ["E put/R put"]

    def begin(self):
        self.count = 0

    @does("put")
    def put(self):
        if self.count == (1 if self.planted else 2):
            raise Refused
        self.count += 1

    @does("get")
    def get(self):
        if self.count == 0:
            raise Refused
        self.count -= 1


class SeventhStep(Small):
    """The seventh tick since the last zero isn't answered."""

    script = "channel tick, zero, tock\nP = tick -> tock -> P [] zero -> P\n"
    outputs = ["tock"]
    shortest = ["E tick/E tock/" * 6 + "E tick/R tock"]

    def begin(self):
        self.ticks = 0

    @does("tick")
    def tick(self):
        self.ticks += 1
        if self.ticks != 7 or not self.planted:
            self.out.append("tock")

    @does("zero")
    def zero(self):
        self.ticks = 0


class RareData(Small):
    """One of 64 messages is delivered as another one."""

    script = "channel put, get : {0..63}\nP = put?x -> get!x -> P\n"
    outputs = ["get"]
    shortest = ["E put.37/E get.38"]

    @does("put.{x}")
    def put(self, x):
        self.out.append("get.%d" % (38 if self.planted and x == 37 else x))


class AtQuiet(Small):
    """An alarm goes off where nothing is done for a while after it was armed."""

    script = "channel arm, disarm, alarm, test\nP = arm -> disarm -> P [] test -> alarm -> P\n"
    outputs = ["alarm"]
    quiet = "1ms"
    shortest = ["E arm/E alarm"]

    def begin(self):
        self.armed = False

    @does("test")
    def test(self):
        self.out.append("alarm")

    @does("arm")
    def arm(self):
        self.armed = True

    @does("disarm")
    def disarm(self):
        self.armed = False

    def observe(self, wait):
        if not self.out:
            time.sleep(wait)
            if self.planted and self.armed and wait > 0:
                self.out.append("alarm")
        return super().observe(wait)


class AfterRestart(Small):
    """A session outlives a restart, so nobody can log in after it."""

    script = "channel login, logout, restart\nP = login -> IN [] restart -> P\nIN = logout -> P [] restart -> P\n"
    shortest = ["E login/E restart/R login"]

    def begin(self):
        self.is_in = False

    @does("login")
    def login(self):
        self.set(True)

    @does("logout")
    def logout(self):
        self.set(False)

    @does("restart")
    def restart(self):
        self.is_in = self.is_in and self.planted

    def set(self, is_in):
        if is_in == self.is_in:
            raise Refused
        self.is_in = is_in


class TwoClients(Small):
    """A lock is granted to a second client while the first has it."""

    script = """channel want, granted, done : {0, 1}
CLIENT(c) = want.c -> granted.c -> done.c -> CLIENT(c)
LOCK = granted?c -> done.c -> LOCK
P = (CLIENT(0) ||| CLIENT(1)) [| {| granted, done |} |] LOCK
"""
    outputs = ["granted"]
    shortest = ["E want.%d/E granted.%d/E want.%d/E granted.%d" % (a, a, b, b) for a, b in ((0, 1), (1, 0))]

    def begin(self):
        self.holders, self.waiting = [], []

    @does("want.{c}")
    def want(self, c):
        self.waiting.append(c)
        self.grant()

    @does("done.{c}")
    def done(self, c):
        if c not in self.holders:
            raise Refused
        self.holders.remove(c)
        self.grant()

    def grant(self):
        while self.waiting and (not self.holders or self.planted):
            self.holders.append(self.waiting.pop(0))
            self.out.append("granted.%d" % self.holders[-1])


SYSTEMS = [TooMany, TooFew, WrongState, NeverComes, WronglyRefused, SeventhStep, RareData, AtQuiet, AfterRestart, TwoClients]
