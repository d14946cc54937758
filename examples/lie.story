# A lie that works because the liar sees what another will make of it.

characters: the heir, the butler

facts:
    the will: in the safe, in the garden, with the butler
    the butler: in the house, in the garden
    the silver: in the house, with the heir

the truth:
    the will is in the safe
    the butler is in the house
    the silver is in the house
    everyone believes this

action the heir says that the will lies in the garden:
    when the butler is in the house
    then the butler believes the will is in the garden
    by the heir
    seen by everyone

action the butler goes into the garden:
    when the butler is in the house
    then the butler is in the garden
    by the butler
    seen by everyone

action the butler digs up the will:
    when the butler is in the garden and the will is in the garden
    then the will is with the butler
    by the butler
    seen by the butler
    seen by nobody else

action the heir takes the silver:
    when the butler is in the garden and the silver is in the house
    then the silver is with the heir
    by the heir
    seen by the heir
    seen by nobody else

author wants:
    5 if the silver is with the heir and the will is in the safe

the heir wants:
    3 if the silver is with the heir

the butler wants:
    2 if the will is with the butler
