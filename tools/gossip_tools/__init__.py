"""What the tools beside the program share: from the numbers of a cluster to scenarios, sweeps, figures and a page.

Python 3.11 is the oldest that they run on, and the one that they were tried with. They need its standard library alone.
Pictures need gnuplot, and a sweep over several machines GNU parallel.

  starting   how a tool starts and ends, whatever streams are closed and signals come
  commands   how a tool answers its caller: help, refusals, faults, the program
  words      what words.toml declares of a tool's words: by it calls are read, and help, page for man, completion made
  texts      the texts beside the modules, and what said.toml has of answers, refusals, notes and pages
  scenario   scenarios and their sections; `cluster` has the numbers that they are made of, `sections` two tools
  sweep      runs of one scenario with other values of its fields, over `files`, `folders`, `running` and `progress`
  read       reports and what they say of some rounds
  rules      what counts as better, as enough and as healed
  advise     from a cluster to a mode and a budget, over `study`, what is run, `choice`, what that chooses and what is
             said of it, `healing`, `measures` and `answer`, which says all of it, and `target`
  page       the page that has it all, over `plots`, its pictures
  live       a scenario as a live cluster, beside what the bench says, over `live_plan`, what is to happen,
             `live_worker`, processes with some nodes each, `live_node`, what a node sends, and `live_figures`, what all
             of them hold
"""
import sys

# The latest format of scenarios, and how many packages with it were handed out.
VERSION = "2.1"

if sys.version_info < (3, 11):
    print("gossip_tools: Python 3.11 or later is needed, and this one is", sys.version.split()[0], file=sys.stderr)
    sys.exit(2)
