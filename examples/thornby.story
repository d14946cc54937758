# Nine o'clock at Thornby: everyone has something to hide, and hides it at once.

characters: Mrs Thorn, Mr Thorn, the niece, the cook, the maid, the gardener

facts:
    the brooch: in the drawer, in the tea caddy, in the greenhouse
    the receipt: in the ledger, in the stove
    the diary: on the desk, under the bed, with Mrs Thorn
    the pistol: in the gun room, in the clock, in the pond
    the boots: muddy, clean
    the cellar: locked, open
    the brandy: full, watered
    the silver: in the pantry, in the sack
    the lamp in the hall: lit, out
    the lamp on the stairs: lit, out
    the gate: shut, open
    the dog: loose, chained
    the letter: on the tray, in the apron, read
    the ladder: in the shed, at the window
    the window: shut, open
    the clock: going, stopped

the truth:
    the brooch is in the drawer
    the receipt is in the ledger
    the diary is on the desk
    the pistol is in the gun room
    the boots are muddy
    the cellar is locked
    the brandy is full
    the silver is in the pantry
    the lamp in the hall is lit
    the lamp on the stairs is lit
    the gate is shut
    the dog is loose
    the letter is on the tray
    the ladder is in the shed
    the window is shut
    the clock is going
    everyone believes this

action Mrs Thorn takes the diary:
    when the diary is on the desk
    then the diary is with Mrs Thorn
    by Mrs Thorn
    seen by Mrs Thorn
    seen by nobody else

action Mrs Thorn hides the brooch in the tea caddy:
    when the brooch is in the drawer
    then the brooch is in the tea caddy
    by Mrs Thorn
    seen by Mrs Thorn
    seen by the maid if the lamp in the hall is lit
    seen by nobody else

action Mrs Thorn puts out the lamp in the hall:
    when the lamp in the hall is lit
    then the lamp in the hall is out
    by Mrs Thorn
    seen by Mrs Thorn, Mr Thorn and the maid
    seen by nobody else

action Mr Thorn burns the receipt:
    when the receipt is in the ledger and the lamp in the hall is out
    then the receipt is in the stove
    by Mr Thorn
    seen by Mr Thorn
    seen by nobody else

action Mr Thorn puts the pistol into the clock:
    when the pistol is in the gun room
    then the pistol is in the clock and the clock is stopped
    by Mr Thorn
    seen by Mr Thorn
    seen by nobody else

action Mr Thorn winds the clock:
    when the clock is stopped
    then the clock is going
    by Mr Thorn
    seen by everyone

action the niece puts out the lamp on the stairs:
    when the lamp on the stairs is lit
    then the lamp on the stairs is out
    by the niece
    seen by the niece and Mrs Thorn
    seen by nobody else

action the niece hides the diary under the bed:
    when the diary is on the desk
    then the diary is under the bed
    by the niece
    seen by the niece
    seen by Mrs Thorn if the lamp on the stairs is lit
    seen by nobody else

action the niece opens the window:
    when the window is shut and the lamp on the stairs is out
    then the window is open
    by the niece
    seen by the niece and the gardener
    seen by nobody else

action the niece climbs down to the gardener:
    when the window is open and the ladder is at the window and the gate is open
    then the window is shut and the ladder is in the shed
    by the niece and the gardener
    seen by the niece and the gardener
    seen by nobody else

action the cook opens the cellar:
    when the cellar is locked
    then the cellar is open
    by the cook
    seen by the cook
    seen by Mr Thorn if the lamp in the hall is lit
    seen by nobody else

action the cook waters the brandy:
    when the brandy is full and the cellar is open
    then the brandy is watered
    by the cook
    seen by the cook
    seen by nobody else

action the cook locks the cellar:
    when the cellar is open
    then the cellar is locked
    by the cook
    seen by the cook
    seen by nobody else

action the cook finds the brooch in the caddy:
    when the brooch is in the tea caddy
    then the brooch is in the greenhouse
    by the cook and the gardener
    seen by the cook and the gardener
    seen by nobody else

action the maid takes the letter:
    when the letter is on the tray
    then the letter is in the apron
    by the maid
    seen by the maid
    seen by nobody else

action the maid reads the letter to the cook:
    when the letter is in the apron
    then the letter is read
    by the maid and the cook
    seen by the maid and the cook
    seen by nobody else

action the maid says that the silver is to be counted:
    when the silver is in the pantry
    then the cook believes the silver is in the sack
    by the maid
    seen by the maid and the cook
    seen by nobody else

action the maid and the gardener pack the silver:
    when the silver is in the pantry and the dog is chained
    then the silver is in the sack
    by the maid and the gardener
    seen by the maid and the gardener
    seen by nobody else

action the gardener chains the dog:
    when the dog is loose
    then the dog is chained
    by the gardener
    seen by the gardener and the maid
    seen by nobody else

action the gardener opens the gate:
    when the gate is shut
    then the gate is open
    by the gardener
    seen by the gardener and the niece
    seen by nobody else

action the gardener sets up the ladder:
    when the ladder is in the shed and the dog is chained
    then the ladder is at the window
    by the gardener
    seen by the gardener and the niece
    seen by nobody else

action the gardener cleans the boots:
    when the boots are muddy
    then the boots are clean
    by the gardener
    seen by the gardener
    seen by nobody else

action the gardener finds the pistol and sinks it:
    when the pistol is in the clock and the clock is stopped
    then the pistol is in the pond
    by the gardener
    seen by the gardener
    seen by nobody else

action Mrs Thorn, Mr Thorn and the niece go in to dinner:
    when the lamp in the hall is out and the lamp on the stairs is out and the boots are clean
    then the lamp in the hall is lit and the lamp on the stairs is lit
    by Mrs Thorn, Mr Thorn and the niece
    seen by everyone

trigger the clock falls silent, and everyone looks up:
    when the clock is stopped and the lamp in the hall is lit
    then the lamp in the hall is out

author wants:
    8 if the silver is in the sack and the receipt is in the stove and the window is open and the brandy is watered

Mrs Thorn wants:
    4 if the diary is with Mrs Thorn and the brooch is in the tea caddy
    3 if the diary is with Mrs Thorn
    2 if the brooch is in the tea caddy
    1 if the lamp in the hall is out

Mr Thorn wants:
    4 if the receipt is in the stove and the pistol is in the clock
    3 if the receipt is in the stove
    1 if the pistol is in the clock

the niece wants:
    4 if the window is open and the ladder is at the window and the gate is open
    3 if the window is open and the diary is under the bed
    2 if the diary is under the bed
    1 if the window is open

the cook wants:
    4 if the brandy is watered and the cellar is locked and the letter is read
    3 if the brandy is watered and the cellar is locked
    2 if the brandy is watered
    1 if the letter is read

the maid wants:
    4 if the silver is in the sack and the letter is read
    3 if the silver is in the sack
    2 if the letter is read

the gardener wants:
    5 if the silver is in the sack and the ladder is at the window
    3 if the ladder is at the window
    2 if the silver is in the sack
    1 if the boots are clean
