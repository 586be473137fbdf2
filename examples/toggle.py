from amaranth import *
from amaranth.lib import wiring
from amaranth.lib.wiring import In, Out

class Toggle(wiring.Component):
    q: Out(1)

    def elaborate(self, platform):
        m = Module()
        m.d.sync += self.q.eq(~self.q)
        return m

top = Toggle()
