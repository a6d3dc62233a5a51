"""A small case with a stream in three segments, one of them latent, and a network of it, of which more than one test
knows."""
from __future__ import annotations

# A feed that is heated, boils and is superheated, beside two hot streams.
FEED = """contribution,,50,,,,
#segment,FEED,FEED-1,,,,
#segment,FEED,FEED-2,,,,
#segment,FEED,FEED-3,,,,
cold,FEED-1,300,800,200,,
cold,FEED-2,800,800,0,60000,
cold,FEED-3,800,1200,100,,
hot,H,2000,900,250,,
hot,K,900,500,100,,
"""
# H passes all three segments one after the other: one exchanger of the plant, and a part of FEED-1 is left to K.
FEED_NETWORK = """exchanger E1 H FEED-3 40000
exchanger E2 H FEED-2 60000
exchanger E3 H FEED-1 80000
exchanger E4 K FEED-1 20000
exchanger E5 H COLD 95000
exchanger E6 K COLD 20000
pass FEED-1 E4 a
pass a E3 b
end b
pass FEED-2 E2 c
end c
pass FEED-3 E1 d
end d
pass H E1 e
pass e E2 f
pass f E3 g
pass g E5 h
end h
pass K E4 k
pass k E6 l
end l
"""
