# The teen's shoes of document 002.

characters: the teen, the mom

facts:
    the teen: at home, at school, at the mall
    the mom: at home, at work, at the party, at the mall
    the shoes: in the shop, with the teen

the truth:
    the teen is at home
    the mom is at the party
    the shoes are in the shop

what the teen believes:
    the mom is at work
    the rest is as in the truth
    everyone believes this

what the mom believes:
    the teen is at school
    the rest is as in the truth
    everyone believes this

action the teen goes to the mall:
    when the teen is at home
    then the teen is at the mall
    by the teen
    seen by the teen
    seen by the mom if the mom is at home or the mom is at the mall

action the teen buys the shoes:
    when the teen is at the mall
    then the shoes are with the teen
    by the teen
    seen by the teen
    seen by the mom if the mom is at the mall

author wants:
    5 if the shoes are with the teen and the mom believes the teen is at school

the teen wants:
    3 if the shoes are with the teen

the mom wants: nothing
