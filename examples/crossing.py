from amaranth import *
from amaranth.lib import wiring
from amaranth.lib.wiring import In, Out


class Crossing(wiring.Component):
    """Takes a flag from the domain `bus` into the domain `pix` by two registers, and counts there how often it rises."""

    flag: In(1)
    count: Out(4)

    def elaborate(self, platform):
        m = Module()
        held = Signal()
        first = Signal()
        second = Signal()
        last = Signal()

        m.d.bus += held.eq(self.flag)
        m.d.pix += [
            first.eq(held),
            second.eq(first),
            last.eq(second),
        ]
        with m.If(second & ~last):
            m.d.pix += self.count.eq(self.count + 1)
        return m


top = Crossing()
