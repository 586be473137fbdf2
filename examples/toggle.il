attribute \top 1
module \top
  wire width 1 input 1 \clk
  wire width 1 input 2 \rst
  attribute \init 1'0
  wire width 1 output 3 \q
  wire width 1 $1
  wire width 1 $5
  wire width 1 $7
  cell $not $2
    parameter \A_SIGNED 0
    parameter \A_WIDTH 1
    parameter \Y_WIDTH 1
    connect \A $1
    connect \Y $5
  end
  cell $mux $11
    parameter \WIDTH 1
    connect \A $5
    connect \B 1'0
    connect \S \rst
    connect \Y $7
  end
  cell $dff $3
    parameter \WIDTH 1
    parameter \CLK_POLARITY 1
    connect \CLK \clk
    connect \D $7
    connect \Q \q
  end
  connect $1 \q
end
