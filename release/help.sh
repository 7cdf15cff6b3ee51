# What `--help` and `--version` of the starters print.
help_swallow_main() {
  cat << 'TEXT'
./swallow FOLDER run [OPTIONS] < PLAN       runs a plan over the logs in FOLDER, and writes its report
./swallow FOLDER session [OPTIONS]          keeps FOLDER open: runs acts batch by batch, and reports each batch
./swallow FOLDER history OBJECT             writes the history of an object, such as 1.7
./swallow FOLDER retire R CLOCK             copies what is current in repository R at a mark into a fresh volume
./swallow FOLDER watch R RULE               updates and writes totals of repository R's objects: count, sum or last
./swallow FOLDER asof R CLOCK               writes the map of repository R's objects as of a clock
./swallow FOLDER audit OBJECT               writes all versions that an object ever had
./swallow FOLDER snapshot [CLOCK]           writes the map of all repositories as of a clock, or as of now
./swallow FOLDER settle N                   settles what runs left in doubt in repositories 1 to N
./swallow FOLDER replay [--values]          carries all attempts out again, and writes whether the logs say the same
./swallow FOLDER votes [OPTIONS] < POLLS    lets repositories 1 to 3 vote, and writes the state of each poll
./swallow FOLDER load SEED COUNT [OPTIONS]  runs COUNT + 1 acts made from SEED, and writes a summary
./swallow build                             proves and builds the program here, and compares it with release/
./swallow test                              tests the program and what the pages show: some minutes, no toolchain

--workers W    how many threads, 1 to 16; default 1; votes has one and refuses this option
--ticks T      the run ends after this many Ticks, when nothing is due, 0 to 1,000,000; default 10,000
--messages N   the run ends after this many messages, 1 to 1,000,000; default 200,000
--quiet        as last word of any command: no warnings
--yes          as last word of 'retire': also at a clock above all that the folder has

Status 0: each act has its outcome, each poll a decision. 1: no command. 2: no plan, no polls, or a run
that the folder refuses. 3: standard input failed. 4: standard output failed. 5: an act has no outcome,
a poll no decision, or a settle left a version in doubt. 6: a node is down (for votes: and a poll has no
decision). 7: out of memory. 8: no retirement, total or map can be made, or the logs don't
replay. 70: the program couldn't be built or started, or 'retire' needs '--yes'.

docs/COMMANDS.md has examples and says what to do; docs/FORMATS.md has the texts of plans and reports.
TEXT
}

help_swallow_lab() {
  cat << 'TEXT'
./swallow_lab --pages P --lose L --stop K --words TEXT [< PLAN]   runs over media in memory
./swallow_lab build                proves and builds the program here, and compares it with release/

--pages P      pages of each medium, 1 to 1,048,576
--lose L       about one message in L is lost, chosen by its number, 0 to 1,000,000; 0 loses none
--stop K       repository 1's medium stops in the write that opens page K, 0 to 1,048,575; with 0 it doesn't stop
--words TEXT   the words of ./swallow after its FOLDER, such as "load 7 20" or "votes --ticks 5"

The statuses are those of ./swallow. docs/COMMANDS.md says what to do.
TEXT
}

help_swallow_look() {
  cat << 'TEXT'
./swallow_look FOLDER [OPTIONS] > page.html   writes a page for a browser: what the logs in FOLDER say
./swallow_look build                          proves and builds the program here, and compares it with release/

--object R.N     only this object, such as 1.7, and the attempts that concern it
--repository R   only the objects of this repository, 1 to 16, and their attempts
--from CLOCK     versions and attempts whose clock is at least this
--to CLOCK       versions and attempts whose clock is at most this

Status 0: the page was written. 1: no command. 4: standard output failed. 7: out of memory.
70: the program couldn't be built or started. docs/COMMANDS.md says what the page shows.
TEXT
}

tell_version() {
  name_program "$1"
  sum_sources "$1" || return 1
  echo "$name, sources $sources"
  if compare_shipped; then
    echo "release/$name: commit $(noted Commit), $(noted Kit)"
  else
    echo "no program of release/ is of these sources: $differs"
  fi
}
