"""A plain model of `pinball check`, `verify` and `play`, which dev/random_machines compares with the built program.

It was written from the description of the profile alone, without a look at the code in crates/, and in the shortest way
that says what has to come out: it reads each text as a whole, keeps everything in lists, and computes each thing anew
when it is wanted. A module is one subject:

    yaml_text   the YAML subset: a text and its tree
    values      names, numbers, times, powers, lists, handled events
    sections    what each section may hold
    bundle      texts, entries, notes, and the errors of a configuration
    plan        numbers by first use, rows, bindings
    devices     a class for each kind of device: its lists, what it may answer, and what it does
    saves       the same for ball saves and multiballs
    coils       what a coil may do, and what it does
    faults      faults 1 to 6
    costs       weights, bounds, cycles
    certificate the text of a certificate
    machine     the run of a log
    answers     what the three commands print

Of each machine these are compared: `check` of the bundle, `verify` of the right certificate and of damaged ones, `play`
of a log and of a damaged one, two damaged bundles, now and then with the certificate of the whole one, and now and
then a folder. Of the machines with a game, two in five are busy: they have a trough, ball saves and multiballs, and
many balls drain in their logs. For each machine there are some texts of parts of YAML in any order, three small
machines whose logs come close to the moments at which a rule changes, and four with long cascades. For each fifty
there is a trough that is asked for about as many balls as it can remember. Once in a run these are compared: all odd
texts, values, certificates and lines of logs, machines that are about one rule each, tables at their limits, and a
machine in which values come to their limits.

These draw what is compared: `draw` (machines), `plant` (faults in them), `odd` (values and texts that are seldom
right), `layout` (the texts of a machine), `logs`, `edges` (moments at which a rule changes), `wanted` (a trough that
has to eject many balls), and `damage` (of bundles, certificates and logs). `once`, `rules` and `greatest` are not
drawn: they are compared once in a run. `cascades` draws small machines, and has a model of its own for them. `compare`
asks the program and the model, and `coverage` says how often each thing has to come up. `mistakes` plants mistakes in
copies of the model, to see whether all this notices them.
"""
