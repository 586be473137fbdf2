from amaranth import *
from amaranth.lib import wiring
from amaranth.lib.wiring import In, Out


class TrafficLight(wiring.Component):
    """A light for cars that turns to red when somebody wants to cross."""

    request: In(1)
    red: Out(1)
    amber: Out(1)
    green: Out(1)
    walk: Out(1)

    def elaborate(self, platform):
        m = Module()
        left = Signal(3)

        with m.If(left != 0):
            m.d.sync += left.eq(left - 1)

        with m.FSM():
            with m.State("GREEN"):
                m.d.comb += self.green.eq(1)
                with m.If(self.request):
                    m.d.sync += left.eq(1)
                    m.next = "AMBER"
            with m.State("AMBER"):
                m.d.comb += self.amber.eq(1)
                with m.If(left == 0):
                    m.d.sync += left.eq(3)
                    m.next = "RED"
            with m.State("RED"):
                m.d.comb += [self.red.eq(1), self.walk.eq(left[0:2] != 0)]
                with m.If(left == 0):
                    m.next = "READY"
            with m.State("READY"):
                m.d.comb += [self.red.eq(1), self.amber.eq(1)]
                m.next = "GREEN"

        return m


top = TrafficLight()
