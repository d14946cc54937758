# P, the smallest story: the example pack of the specification.

characters: Ann, Ben

facts:
    the lamp: out, lit, broken

the truth:
    the lamp is out
    everyone believes this

action Ann lights the lamp:
    when the lamp is out
    then the lamp is lit
    by Ann
    seen by Ann
    seen by nobody else

author wants:
    5 if the lamp is lit

Ann wants:
    5 if the lamp is lit

Ben wants: nothing
