# shellcheck shell=bash
# What --help says of the script's own commands.

tell_words() {
    cat <<'EOF'

The script ./mpwb has ten more commands, which `./mpwb COMMAND --help` describes:
  ask      Sends a line to a seat of a live desk and shows the answer
  build    Proves and builds the program
  install  Installs the program with a man page and completions for shells
  join     Takes a seat of a live desk
  package  Packs the program for people who have neither sources nor a kit
  page     Writes a page for a browser that shows the waveforms
  races    Shows for each bundle the transfer that tolerates least
  stress   Finds out whether bundles hold while delays vary
  test     Tests the program, in a minute or two
  watch    Shows the netlist of a live desk, again after each edit
EOF
}

tell_build() {
    cat <<'EOF'
Proves and builds the program.

Usage: ./mpwb build

Proves every part of the program and builds it. This takes about an hour on four
processors, once; from then on an answer takes milliseconds. It shows how far it
is. Meanwhile ./mpwb answers by the program without proofs. If you stop it, the
next call begins anew, except with rattle-kit-13f, which keeps what is proved. If
the program is built and no source is newer, it does nothing.

Exit status:
  0   the program is built
  2   the command line was refused
  3   TMPDIR names no folder that takes files
  70  the program was not built
EOF
}

tell_test() {
    cat <<'EOF'
Tests the program, in a minute or two.

Usage: ./mpwb test

Runs all examples and stored runs, compares the documents with what the program
writes, and tests the Python package and this script. It tests the proved program
if that is built, and else the one without proofs. What fails is shown, and the
last line is `N passed, M failed`. The whole test, with all proofs, is .ci/run.

Exit status:
  0   all passed
  1   something failed
  2   the command line was refused
  70  there is no program
EOF
}

tell_join() {
    cat <<'EOF'
Takes a seat of a live desk.

Usage: ./mpwb join FOLDER SEAT

FOLDER is that of a desk that runs, by `./mpwb desk FILE --at FOLDER`. SEAT is
designer-1, designer-2 .. or viewer-1, viewer-2 .. Each line that you type goes to
the seat, and its answer is shown; `./mpwb desk --help` describes both. The end of
input (Ctrl-D) leaves the seat, and anybody can take it again. A seat is for one
person at a time. At a terminal its name is the prompt, which appears once the
line before is answered.

Exit status:
  0    the seat was left
  2    the command line was refused
  3    there is no desk or no such seat, the seat is taken, or the desk has left it
  130  it was interrupted, which leaves the seat too
EOF
}

tell_ask() {
    cat <<'EOF'
Sends a line to a seat of a live desk and shows the answer.

Usage: ./mpwb ask FOLDER SEAT LINE

FOLDER and SEAT are those of `./mpwb join`, and LINE is a line as it is typed
there, as one word or as several. The answer is written to standard output, and
the seat is free again. For example, `./mpwb ask meeting viewer-1 text > now.net`
saves the netlist as it is now, and `./mpwb ask meeting designer-1 delay c1 0 4`
makes an edit.

Exit status:
  0    the line was answered
  1    the answer is that the line is refused or can't be read
  2    the command line was refused
  3    there is no desk or no such seat, the seat is taken, or the desk has left it
  130  it was interrupted
EOF
}

tell_watch() {
    cat <<'EOF'
Shows the netlist of a live desk, again after each edit.

Usage: ./mpwb watch [--page FILE] FOLDER SEAT [QUESTION ..]

FOLDER is that of a desk that runs, by `./mpwb desk FILE --at FOLDER`. SEAT is
viewer-1, viewer-2 .. QUESTION is a line as it is typed at the seat, for example
`show 0 100 --hex`, and its answer is shown; without one, a timing diagram as wide
as the terminal. After each edit it is shown again, with the new edits below it.
At a terminal it takes the place of the one before; otherwise they follow each
other, each after a line `version N`. If edits come faster than they can be shown,
some versions are left out. Ctrl-C leaves the seat.

Options:
      --page <FILE>
          Write a page for a browser, as meeting.html, and keep it current.
          It marks what has changed. What it shows is beside it, in
          meeting.data.js and meeting.version.js. This option comes first

Exit status:
  0    Ctrl-C ended it
  1    no page can be made of the netlist
  2    the command line was refused
  3    there is no desk or no such seat, the seat is taken, the desk has left it, or
       a write failed
  4    memory ran out for a page
  70   there is no program to make a page, or it has a fault
  130  another signal ended it
EOF
}

tell_page() {
    cat <<'EOF'
Writes a page for a browser that shows the waveforms.

Usage: ./mpwb page [FILE] > page.html

Reads a netlist from FILE, or from standard input if FILE is `-` or isn't given.
Writes one HTML file, which needs nothing else: it has the netlist, its waveforms
and what `check` finds. On the page you zoom and scroll through the waveforms,
read all levels at a cursor, find wires, go from finding to finding, and see what
caused a change and what the change causes. The page lists its keys. Drop a file
on it that `waves` or `page` has written, and it compares the two.

Exit status:
  0   the page was written
  1   the netlist has a fault
  2   the command line was refused
  3   a read or a write failed
  4   memory ran out
  70  there is no program, or it has a fault
EOF
}

tell_races() {
    cat <<'EOF'
Shows for each bundle the transfer that tolerates least.

Usage: ./mpwb races [FILE]

Reads a netlist from FILE, or from standard input if FILE is `-` or isn't given.
Writes a line for each bundle whose data come before a request, that which
tolerates least first. It has the last change that both the data and the request
come from, the delays of both chains from there with their sums, by how much the
data come before the request and its setup, and by how many per cent these
delays, all the others being as they are, may vary. It needs Python 3.9 or later.

Exit status:
  0    the races were shown
  1    the netlist has a fault
  2    the command line was refused
  3    a read failed
  4    memory ran out
  5    `check` finds something wrong; its lines are shown
  6    the run of the netlist can't be followed
  70   there is no Python 3.9, or no program, or it has a fault
  130  it was interrupted
EOF
}

tell_stress() {
    cat <<'EOF'
Finds out whether bundles hold while delays vary.

Usage: ./mpwb stress [OPTIONS] [FILE]

Reads a netlist from FILE, or from standard input if FILE is `-` or isn't given.
Looks for delays in their ranges with which `check` writes a line or a datum
differs, and bounds the margin of each bundle over all delays in the ranges. It
writes a line for each bundle, with its margin above the setup as the netlist
stands and the worst one, and then `holds`, `breaks` or `differs` with the delays
that do it, `open` with what isn't known, or `nothing found`. What it finds is the
program's answer; what holds is computed by a package that is tested, and isn't
proved. docs/STRESS.md says more. Ctrl-C gives what is known so far. It needs
Python 3.9 or later.

Options:
      --spread <PERCENT>
          By how much each delay varies to both sides, by default 10

      --limit
          Find the greatest spread, in whole per cents, at which it holds

      --most <PERCENT>
          The greatest spread that --limit tries, by default 60

      --fit
          Lengthen matched delays, each a BUF on a request, until it holds

      --together <GROUPS>
          Delays of one line of the file GROUPS, names of modules, vary as one

      --range <RANGE>
          Another range for a module or a kind, as sink=-50..200, in per cent

      --corner <ENDS>
          The ends, in per cent, of one more factor of all delays, as 70..140

      --each
          A delay may be another one at each event

      --seconds <N>
          After about so many seconds bounds are sharpened no more, by default 60

      --out <BASE>
          Write the worst netlist to BASE.net, a script that shows the fault to
          BASE.play, and pictures of both chains of causes to BASE-data.svg and
          BASE-request.svg; with --fit the netlist that holds to BASE.net

      --plot <FILE>
          Draw the margins against the spread to FILE, as margins.svg, with a
          table beside it, as margins.csv

Exit status:
  0    it holds
  1    the netlist has a fault
  2    the command line was refused
  3    a read or a write failed
  4    memory ran out
  5    it breaks or differs, or `check` finds something wrong as it stands
  6    it isn't known
  70   there is no Python 3.9, or no program, or it has a fault
  130  it was interrupted before anything was known
EOF
}

tell_install() {
    cat <<'EOF'
Installs the program with a man page and completions for shells.

Usage: ./mpwb install [PREFIX]

PREFIX is a folder, by default /usr/local. Build the program first, with
`./mpwb build`. These files are put there, in place of older ones:

  PREFIX/lib/nesthrim      the program, the script with its parts, the Python
                           package that `stress` and `races` need, the licences
  PREFIX/bin/mpwb          a link to the script
  PREFIX/share/man/man1/mpwb.1
  PREFIX/share/bash-completion/completions/mpwb
  PREFIX/share/zsh/site-functions/_mpwb
  PREFIX/share/fish/vendor_completions.d/mpwb.fish

To uninstall it, remove these files.

Exit status:
  0   it is installed
  2   the command line was refused
  3   a file can't be written
  70  the program isn't built
EOF
}

tell_package() {
    cat <<'EOF'
Packs the program for people who have neither sources nor a kit.

Usage: ./mpwb package [--deb]

Writes an archive, as nesthrim-0.1.0-x86_64.tar.gz, into the folder where it is
called. Build the program first, with `./mpwb build`. Whoever unpacks it, on x86-64
Linux with the C library that is told, runs ./mpwb in its folder, or ./mpwb install
there. It has what `install` puts in its place, with the documents and examples.
All files have the time SOURCE_DATE_EPOCH, in seconds since 1970, or that of the
last commit. The same files and the same time give the same bytes.

Options:
      --deb
          Write a Debian package too, as nesthrim_0.1.0_amd64.deb, by dpkg-deb

Exit status:
  0    it is packed
  2    the command line was refused
  3    a file can't be written
  70   the program isn't built, or dpkg-deb or the number isn't there
EOF
}
