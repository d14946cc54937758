# The necklace of Merrow Court: a theft that its owner hopes for.

characters: Lady Merrow, the Colonel, Miss Finch, the doctor, the butler, the inspector

facts:
    the necklace: in the case, with the Colonel, in the well
    the stones: paste, real
    the key: with Lady Merrow, on the piano
    the party: at cards, in the garden
    the ring: with the doctor, with Miss Finch
    the engagement: secret, announced
    the claim: unmade, made, paid
    the letter: in the desk, with the butler, burnt
    the lamps: lit, out
    the inspector: in the village, in the house
    the Colonel: at liberty, under arrest
    the gossip: silent, told

the truth:
    the necklace is in the case
    the stones are paste
    the key is with Lady Merrow
    the party is at cards
    the ring is with the doctor
    the engagement is secret
    the claim is unmade
    the letter is in the desk
    the lamps are lit
    the inspector is in the village
    the Colonel is at liberty
    the gossip is silent
    Miss Finch believes what Miss Finch believes
    the doctor believes what Miss Finch believes
    the inspector believes what the Colonel believes
    everyone else believes this

# The Colonel takes the stones for real, and everyone to be of his opinion.
what the Colonel believes:
    the stones are real
    the rest is as in the truth
    everyone believes this

# Miss Finch knows the paste, and thinks that her mistress doesn't.
what Miss Finch believes:
    everything is as in the truth
    Lady Merrow believes what the Colonel believes
    the Colonel believes what the Colonel believes
    the inspector believes what the Colonel believes
    everyone else believes this

action Lady Merrow leaves the key on the piano:
    when the key is with Lady Merrow
    then the key is on the piano
    by Lady Merrow
    seen by Lady Merrow and the Colonel
    seen by nobody else

action Lady Merrow says that London has valued the stones:
    when the party is at cards
    then the Colonel believes the stones are real
     and Miss Finch believes the gossip is told
    by Lady Merrow
    seen by everyone

action the doctor gives Miss Finch the ring:
    when the ring is with the doctor
    then the ring is with Miss Finch
    by the doctor and Miss Finch
    seen by the doctor and Miss Finch
    seen by nobody else

action Miss Finch and the doctor announce the engagement:
    when the ring is with Miss Finch and the party is in the garden and the engagement is secret
    then the engagement is announced
    by Miss Finch and the doctor
    seen by everyone

action the party walks into the garden:
    when the party is at cards
    then the party is in the garden
    by Lady Merrow, Miss Finch and the doctor
    seen by everyone

action the party comes in again:
    when the party is in the garden
    then the party is at cards
    by Lady Merrow
    seen by everyone

action the Colonel takes the necklace:
    when the necklace is in the case and the key is on the piano and the party is in the garden
    then the necklace is with the Colonel
    by the Colonel
    seen by the Colonel
    seen by Lady Merrow if the lamps are lit
    seen by nobody else

action the Colonel drops the necklace into the well:
    when the necklace is with the Colonel and the party is at cards
    then the necklace is in the well
    by the Colonel
    seen by the Colonel
    seen by the butler if the lamps are lit
    seen by nobody else

action Lady Merrow finds the case empty:
    when the necklace is not in the case and the claim is unmade
    then the claim is made
     and the butler believes the necklace is with the Colonel
     and the inspector believes the necklace is with the Colonel
    by Lady Merrow
    seen by everyone

action the butler fetches the inspector:
    when the inspector is in the village and the claim is made
    then the inspector is in the house
    by the butler
    seen by everyone

action Lady Merrow and the inspector sign the claim:
    when the claim is made and the inspector is in the house
    then the claim is paid
    by Lady Merrow and the inspector
    seen by Lady Merrow and the inspector
    seen by nobody else

action the inspector arrests the Colonel:
    when the inspector is in the house and the necklace is with the Colonel and the Colonel is at liberty
    then the Colonel is under arrest
    by the inspector
    seen by everyone

action Miss Finch tells the Colonel that the stones are paste:
    when the Colonel believes the stones are real
    then the Colonel believes the stones are paste
     and the Colonel believes the gossip is told
    by Miss Finch
    seen by Miss Finch and the Colonel
    seen by nobody else

action the butler puts out the lamps:
    when the lamps are lit
    then the lamps are out
    by the butler
    seen by everyone

action the butler lights the lamps:
    when the lamps are out
    then the lamps are lit
    by the butler
    seen by everyone

action the butler takes the letter from the desk:
    when the letter is in the desk and the lamps are out
    then the letter is with the butler
    by the butler
    seen by the butler
    seen by nobody else

action the butler burns the letter:
    when the letter is with the butler
    then the letter is burnt
    by the butler
    seen by the butler
    seen by nobody else

action the butler sells the letter to the Colonel:
    when the letter is with the butler and the lamps are lit
    then the letter is burnt and the gossip is told
    by the Colonel and the butler
    seen by the Colonel and the butler
    seen by nobody else

trigger the house talks:
    when the engagement is announced and the gossip is silent
    then the gossip is told

author wants:
    9 if the Colonel is under arrest and the claim is paid and the stones are paste

Lady Merrow wants:
    5 if the claim is paid

the Colonel wants:
    5 if the necklace is with the Colonel and the stones are real and the letter is burnt
    4 if the necklace is with the Colonel and the stones are real

Miss Finch wants:
    3 if the engagement is announced
    2 if the ring is with Miss Finch and the party is in the garden
    1 if the ring is with Miss Finch

the doctor wants:
    4 if the engagement is announced and the claim is unmade
    2 if the engagement is announced
    1 if the ring is with Miss Finch

the butler wants:
    5 if the inspector is in the house and the letter is burnt
    3 if the letter is burnt
    2 if the inspector is in the house
    1 if the letter is with the butler

the inspector wants:
    6 if the Colonel is under arrest
    2 if the claim is paid
