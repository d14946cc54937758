# The new will of Lord Ashby: three signatures, and one act too many.

characters: Lord Ashby, the solicitor, the vicar, the nephew, the nurse, the housekeeper

facts:
    the will: in draft, signed
    Lord Ashby: asleep, awake
    the solicitor: in London, at the lodge, in the sickroom
    the vicar: at church, in the sickroom
    the nephew: in the house, at the races
    the horse: lame, running
    the drops: in the bottle, in the glass, poured away
    the pen: in the study, in the sickroom
    the telegram: unsent, sent
    the roof of the church: leaking, promised
    the reference: unwritten, written
    the dog: in the yard, in the hall
    the window: shut, open
    the fever: high, past

the truth:
    the will is in draft
    Lord Ashby is asleep
    the solicitor is in London
    the vicar is at church
    the nephew is in the house
    the horse is lame
    the drops are in the glass
    the pen is in the study
    the telegram is unsent
    the roof of the church is leaking
    the reference is unwritten
    the dog is in the yard
    the window is shut
    the fever is past
    the nephew believes what the nephew believes
    the vicar believes what the vicar believes
    everyone else believes this

# The nephew takes the fever to be high, and everyone to think so.
what the nephew believes:
    the fever is high
    the rest is as in the truth
    everyone believes this

# The vicar knows better, but takes the nurse for a fool.
what the vicar believes:
    everything is as in the truth
    the nephew believes what the nephew believes
    the nurse believes what the nephew believes
    everyone else believes this

action the housekeeper sends the telegram:
    when the telegram is unsent
    then the telegram is sent
    by the housekeeper
    seen by the housekeeper, the nurse and the solicitor
    seen by nobody else

action the solicitor comes to the lodge:
    when the solicitor is in London and the telegram is sent
    then the solicitor is at the lodge
    by the solicitor
    seen by everyone

action the housekeeper lets the solicitor in:
    when the solicitor is at the lodge
    then the solicitor is in the sickroom
    by the solicitor and the housekeeper
    seen by the solicitor, the housekeeper, the nurse and the vicar
    seen by Lord Ashby if Lord Ashby is awake
    seen by nobody else

action the nurse pours the drops away:
    when the drops are in the glass
    then the drops are poured away
    by the nurse
    seen by the nurse, the housekeeper, Lord Ashby, the solicitor and the vicar
    seen by nobody else

action the nephew fills the glass again:
    when the drops are in the bottle and the nephew is in the house
    then the drops are in the glass
    by the nephew
    seen by the nephew and the nurse
    seen by nobody else

action the nurse gives Lord Ashby his drops:
    when the drops are in the glass and Lord Ashby is awake
    then Lord Ashby is asleep and the drops are in the bottle
    by the nurse and Lord Ashby
    seen by everyone

action the vicar comes to the sickroom:
    when the vicar is at church and the fever is past
    then the vicar is in the sickroom
    by the vicar
    seen by everyone

action the vicar goes back to his church:
    when the vicar is in the sickroom
    then the vicar is at church
    by the vicar
    seen by everyone

action the housekeeper says that the horse is running:
    when the nephew is in the house
    then the nephew believes the horse is running
    by the housekeeper
    seen by the housekeeper, the nephew and the nurse
    seen by nobody else

action the nephew goes to the races:
    when the nephew is in the house
    then the nephew is at the races
    by the nephew
    seen by everyone

action the nephew comes back:
    when the nephew is at the races
    then the nephew is in the house
    by the nephew
    seen by everyone

action the nurse brings the pen from the study:
    when the pen is in the study and the nephew is at the races
    then the pen is in the sickroom
    by the nurse
    seen by the nurse, the housekeeper, the solicitor and the vicar
    seen by Lord Ashby if Lord Ashby is awake
    seen by nobody else

action Lord Ashby signs before the solicitor and the vicar:
    when the will is in draft and Lord Ashby is awake and the pen is in the sickroom
     and the solicitor is in the sickroom and the vicar is in the sickroom
    then the will is signed
    by Lord Ashby, the solicitor and the vicar
    seen by everyone

action Lord Ashby promises the vicar a roof:
    when Lord Ashby is awake and the vicar is in the sickroom and the roof of the church is leaking
    then the roof of the church is promised
    by Lord Ashby and the vicar
    seen by Lord Ashby, the vicar and the nurse
    seen by nobody else

action Lord Ashby writes the nurse a reference:
    when Lord Ashby is awake and the pen is in the sickroom and the reference is unwritten
    then the reference is written
    by Lord Ashby and the nurse
    seen by Lord Ashby and the nurse
    seen by nobody else

action the nurse opens the window:
    when the window is shut
    then the window is open
    by the nurse
    seen by the nurse
    seen by Lord Ashby if Lord Ashby is awake
    seen by nobody else

action the nephew lets the dog in:
    when the dog is in the yard and the nephew is in the house
    then the dog is in the hall
    by the nephew
    seen by the nephew and the housekeeper
    seen by nobody else

action the housekeeper turns the dog out:
    when the dog is in the hall
    then the dog is in the yard
    by the housekeeper
    seen by the housekeeper
    seen by the nephew if the nephew is in the house
    seen by nobody else

trigger without his drops Lord Ashby wakes:
    when the drops are poured away and Lord Ashby is asleep
    then Lord Ashby is awake

author wants:
    7 if the will is signed and the nephew is at the races

Lord Ashby wants:
    5 if the will is signed and the roof of the church is promised
    4 if the will is signed
    2 if the reference is written
    1 if the window is open

the solicitor wants:
    4 if the will is signed
    1 if the solicitor is in the sickroom

the vicar wants:
    4 if the will is signed and the roof of the church is promised
    3 if the roof of the church is promised
    2 if the will is signed

the nephew wants:
    4 if the horse is running and the nephew is at the races
    3 if the will is in draft and the drops are in the glass
    2 if the will is in draft and the dog is in the hall
    1 if the will is in draft

the nurse wants:
    5 if the reference is written and the will is signed
    4 if the reference is written
    2 if Lord Ashby is awake and the window is open
    1 if Lord Ashby is awake

the housekeeper wants:
    5 if the will is signed and the dog is in the yard
    3 if the will is signed
    2 if the solicitor is in the sickroom and the dog is in the yard
    1 if the dog is in the yard
