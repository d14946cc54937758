# A story to begin with. What stands behind a # is a remark; change the rest as you like.
# `pirwodd check` says what is wrong with it, and `pirwodd play` finds its ending.

# Who has beliefs and wants something: one to six.
characters: Ada, the cousin

# What can be one way or another: a name, and the values that it can have.
facts:
    the letter: in the desk, in the drawer
    the cousin: out, in the house

# How things really are at the start, and who believes what of it. Who is mistaken gets a section
# of their own: `what the cousin believes:`, with all that is so there.
the truth:
    the letter is in the desk
    the cousin is out
    everyone believes this

# What can happen: `when` it can be done, `then` what it changes, `by` whose reasons it needs, and
# `seen by` who notices. Who doesn't see it goes on believing what was so before.
action Ada moves the letter to the drawer:
    when the letter is in the desk
    then the letter is in the drawer
    by Ada
    seen by Ada
    seen by the cousin if the cousin is in the house

action the cousin comes home:
    when the cousin is out
    then the cousin is in the house
    by the cousin
    seen by everyone

# What the story is to come to, and what it is worth.
author wants:
    5 if the cousin is in the house and the letter is in the drawer
     and the cousin believes the letter is in the desk

# What each one wants. Nobody does anything that doesn't lead, as far as they believe, to a wish of theirs.
Ada wants:
    2 if the letter is in the drawer

the cousin wants:
    1 if the cousin is in the house
