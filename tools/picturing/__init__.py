"""What tools/picture stands on: schedules, programs, polyvalues, the protocol's rules, traces, and the drawing of them."""
