"""A small case and a network of it with a split stream, of which more than one test knows."""
from __future__ import annotations

# Three branches of 50, 30 and 20 %; two pinches; a stream that begins at the lower one.
THREE = b"""contribution,,0,,,,
hot,H,2000,1000,100,,
cold,A,500,1000,100,,
cold,B,500,1000,60,,
cold,D,500,1000,40,,
"""
THREE_NETWORK = b"""exchanger E1 H A 50000
exchanger E2 H B 30000
exchanger E3 H D 20000
split H a 50 r
split r b 30 c
pass a E1 a2
pass b E2 b2
pass c E3 c2
mix a2 b2 m
mix m c2 n
end n
pass A E1 x
end x
pass B E2 y
end y
pass D E3 z
end z
"""
