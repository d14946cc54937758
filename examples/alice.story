# Alice, Bob and Charlie of document 003: two come home, and two situations become one.

characters: Alice, Bob, Charlie

facts:
    Alice: at home, at the office, at the store
    Bob: at home, at the office, at the store
    Charlie: at home, at the office, at the store

the truth:
    Alice is at home
    Bob is at the office
    Charlie is at the office
    everyone else believes this

what Alice believes:
    Bob is at the store
    Charlie is at the store
    the rest is as in the truth
    everyone believes this

action Bob goes home:
    when Bob is at the office
    then Bob is at home
    by Bob
    seen by everyone

action Charlie goes home:
    when Charlie is at the office
    then Charlie is at home
    by Charlie
    seen by everyone

author wants:
    5 if Alice believes Bob is at home and Alice believes Charlie is at home

Alice wants: nothing

Bob wants:
    1 if Bob is at home

Charlie wants:
    1 if Charlie is at home
