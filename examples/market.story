# The market of document 001: Tom, a merchant and a potion.

characters: Tom, the merchant

facts:
    Tom: at the cottage, at the market
    the merchant: at the cottage, at the market
    the potion: with the merchant, with Tom
    Tom's wealth: 0 to 1
    the merchant's wealth: 0 to 4
    the takings: 0 to 1
    the stalls: unseen, seen

the truth:
    Tom is at the cottage
    the merchant is at the market
    the potion is with the merchant
    Tom's wealth is 1
    the merchant's wealth is 3
    the takings are 0
    the stalls are unseen

# Tom takes the merchant to be away, and poorer.
what Tom believes:
    the merchant is at the cottage
    the merchant's wealth is 2
    the rest is as in the truth
    everyone believes this

# The merchant knows how things are, and takes Tom to know it too.
what the merchant believes:
    everything is as in the truth
    everyone believes this

action Tom walks to the market:
    when Tom is at the cottage
    then Tom is at the market
    by Tom
    seen by Tom
    seen by the merchant if the merchant is at the cottage or the merchant is at the market

action Tom walks to the cottage:
    when Tom is at the market
    then Tom is at the cottage
    by Tom
    seen by Tom
    seen by the merchant if the merchant is at the cottage or the merchant is at the market

action Tom buys the potion:
    when Tom is at the market and the merchant is at the market
     and the potion is with the merchant and Tom's wealth is at least 1
    then the potion is with Tom and the takings are 1 and Tom's wealth is 0
    by Tom and the merchant
    seen by Tom if Tom is at the market
    seen by the merchant if the merchant is at the market

trigger Tom sees the merchant:
    when Tom is at the market and the merchant is at the market
     and Tom believes the merchant is not at the market and the stalls are unseen
    then Tom believes the merchant is at the market
     and the stalls are seen and Tom believes the stalls are seen

author wants:
    5 if the potion is with Tom

Tom wants:
    3 if the potion is with Tom
    1 if Tom is at the market

the merchant wants:
    2 if the takings are at least 1
