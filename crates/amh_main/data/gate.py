from amaranth import *
from amaranth.lib import wiring
from amaranth.lib.wiring import In, Out

class Gate(wiring.Component):
    a: In(1)
    b: In(1)
    y: Out(1)

    def elaborate(self, platform):
        m = Module()
        m.d.comb += self.y.eq(self.a & self.b)
        return m

top = Gate()
