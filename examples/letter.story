# A letter is moved while the cousin is out, and he breaks open the wrong piece of furniture.

characters: Ada, the cousin

facts:
    the letter: in the desk, in the drawer, with the cousin
    the desk: locked, broken open
    the cousin: out, in the house

the truth:
    the letter is in the desk
    the desk is locked
    the cousin is out
    everyone believes this

action Ada moves the letter to the drawer:
    when the letter is in the desk and the desk is locked
    then the letter is in the drawer
    by Ada
    seen by Ada
    seen by the cousin if the cousin is in the house

action the cousin comes home:
    when the cousin is out
    then the cousin is in the house
    by the cousin
    seen by everyone

action the cousin breaks the desk open:
    when the cousin is in the house and the desk is locked
    then the desk is broken open
    by the cousin
    seen by the cousin
    seen by nobody else

action the cousin takes the letter from the desk:
    when the cousin is in the house and the desk is broken open and the letter is in the desk
    then the letter is with the cousin
    by the cousin
    seen by the cousin
    seen by nobody else

author wants:
    5 if the desk is broken open and the letter is in the drawer

Ada wants:
    2 if the letter is in the drawer

the cousin wants:
    3 if the letter is with the cousin
