# Every form that the text has. It isn't a story.

author wants:
    65535 if the hour is at least 3 and Eve believes Al believes Eve believes Al believes the hour is not 2
      or the lamp is lit, and the hour is 1,
      or always
    0 if never
    7 otherwise

characters: Al, Eve and the old Dr. O'Neil-Çelik

view nowhere:
    the lamp is broken
    the rest is as in what Al believes
    Al believes the truth
    Eve believes what Al believes and the old Dr. O'Neil-Çelik believes this

the truth: the hour is 1, the lamp is out and Al is here
    only is one and doors are none
    everyone else believes this

what Al believes Eve believes:
    the hour is 3
    the rest is as in nowhere
    everyone believes this

what Al believes:
    the hour is 2, and Al is there
    the old Dr. O'Neil-Çelik believes nowhere
    the rest is as in the truth, everyone else believes this

view the same again:
    everything is as in what Al believes Eve believes
    everyone believes the truth

facts:
    the hour: 1 to 12
    the lamp: out, lit or broken   # "or" and "and" do as well as a comma
    Al: here, there
    only: one
    doors: none, 1 to 3

trigger the lamp goes out if and as it is late:
    when the hour is at least 11
    then the lamp is out

trigger nothing:
    when never
    then nothing

action Al and Eve light it:
    when the lamp is out and Al believes the lamp is not lit
    then the lamp is lit
     and Eve believes the lamp is lit, the hour is 12
    then Al believes Al is here
    by Eve and Al
    seen by Al, Eve if Al is here or always
    seen by everyone else if the lamp is lit

action nobody's doing:
    when always
    then nothing
    by nobody
    seen by nobody

action hush, Eve, a secret!:
    when never
    then Al is here
    by the old Dr. O'Neil-Çelik
    seen by everyone

action another:
    when always
    then nothing
    by nobody
    seen by everyone else if doors is 2
    seen by Al if never
    seen by Eve

action one more:
    when always
    then nothing
    by nobody
    seen by Eve
    seen by nobody else

Eve wants:
    3 if Eve believes Al believes doors is none
    1 if always

Al wants:
    9 if always

the old Dr. O'Neil-Çelik wants: nothing
