# An inspector who is one action short of opening a safe.

characters: the inspector

facts:
    the inspector: in the hall, in the library, in the gallery, in the study
    the key: in the library, with the inspector
    the safe: shut, open

the truth:
    the inspector is in the hall
    the key is in the library
    the safe is shut
    everyone believes this

action the inspector goes into the library:
    when the inspector is in the hall
    then the inspector is in the library
    by the inspector
    seen by everyone

action the inspector takes the key:
    when the inspector is in the library and the key is in the library
    then the key is with the inspector
    by the inspector
    seen by everyone

action the inspector goes into the gallery:
    when the inspector is in the library
    then the inspector is in the gallery
    by the inspector
    seen by everyone

action the inspector goes into the study:
    when the inspector is in the gallery
    then the inspector is in the study
    by the inspector
    seen by everyone

action the inspector opens the safe:
    when the inspector is in the study and the key is with the inspector and the safe is shut
    then the safe is open
    by the inspector
    seen by everyone

author wants:
    5 if the safe is open

the inspector wants:
    4 if the safe is open
    2 if the inspector is in the study and the key is with the inspector
    1 if the key is with the inspector
