from amaranth import *
from amaranth.lib import wiring
from amaranth.lib.wiring import In, Out


class Stage(wiring.Component):
    """One register."""

    d: In(8)
    q: Out(8)

    def elaborate(self, platform):
        m = Module()
        m.d.sync += self.q.eq(self.d)
        return m


class DelayLine(wiring.Component):
    """Gives what it was given some ticks ago, and the sum of all that is on the way."""

    d: In(8)
    q: Out(8)
    total: Out(16)

    def __init__(self, depth):
        super().__init__()
        self.depth = depth

    def elaborate(self, platform):
        m = Module()
        stages = [Stage() for i in range(self.depth)]
        last = self.d
        for i, stage in enumerate(stages):
            m.submodules[f"stage{i}"] = stage
            m.d.comb += stage.d.eq(last)
            last = stage.q
        m.d.comb += [self.q.eq(last), self.total.eq(sum([stage.q for stage in stages]))]
        return m


top = DelayLine(4)
