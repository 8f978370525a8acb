#!/usr/bin/env python3
"""Command lines, and what the program parses them as: `parsing.py PROGRAM`. The last line is 'N passed, M failed'.

Each line of a table is one command line, quoted as for a POSIX shell. The tables are what another parser of command lines,
`clap`, says of the same grammar, and the comments say where the program differs. The standard input is empty.
"""
import shlex
import subprocess
import sys
from concurrent.futures import ThreadPoolExecutor

PROGRAM = sys.argv[1]

# Both parse these as a command.
COMMANDS = r"""
serve --ids
serve --ids --
each -0 -- print
--percent script
--strict --percent serve
--mapping key --strict audit 1
--mapping key script
--nodes 2 script
--edits 0 --nodes 1 serve --ids
--nodes --edits --edits --nodes audit 1
--domain S-1-5-21-1-2-3 --aliases --whole script
--whole --aliases serve --ids
--domain S-1-5-21-1-2-3 --percent audit 1
--mapping key serve
--mapping key audit -- 1
--loose --whole frombin 00
--mapping 1,2,4,8 each verdict SY 0x1
each print
each -0 print
each lint --
each verdict SY 0x1 BU +take
each -0 frombin
--names each why SY 0x1
--names verdict D: SY Modify
--names --mapping key rights KEY_READ+WD
--whole print D:
--aliases print D:
--aliases --domain S-1-5-21-1-2-3 verdict D: SY 0x1
--whole frombin --base64
--whole who D: 0x1
--whole compare D: D: WD
--whole each lint
--whole each -0 --key compare D:
--stdin --whole why SY 0x1
--whole --type bf9679c0-0de6-11d0-a285-00aa003049e2 verdict D: SY 0x1
--type 1 --type 2 --type 3 --type 4 --type 5 --whole why D: SY 0x1
--whole --self PS who D: 0x1
--whole --type --whole each verdict SY 0x1
--base64 --whole frombin AA==
--mapping key verdict D: SY 0x1
--mapping --mapping --names why -- -h SY 0x1
--mapping '' --domain '' lint --mapping
--names why D: SY 0x1
--names lint D:
--names script
--names serve
--names audit 1
--names each print
--names --mapping key print D:
--names --mapping key sort D:
--names why -- -h SY 0x1 --names
--names why --names --names --names
--domain S-1-5-21-1-2-3 verdict D: DA 0x1
--domain '' print D:
--domain --names --names why D: SY 0x1
--names --domain -h why -- -h SY 0x1
--domain --domain lint --domain
tobin --domain
why --names SY 0x1
why D: SY 0x1 --names
verdict --names --names --names
lint D:
lint -- -h
why D: SY 0x1
why -- -h SY 0x1 4 --help
verdict D: SY 0x1
verdict D: SY 0x1 4
verdict D: SY 0x1 4 5
verdict D: SY 0x1 4 5 6
verdict D: SY 0x1 4 5 6 7
verdict D: SY 0x1 4 5 6 7 8
verdict D: SY 0x1 4 5 6 7 8 9
verdict D: SY 0x1 4 5 6 7 8 9 10
verdict '' '' ''
verdict '' '' '' ''
verdict help help help help
verdict -x --y -z -
verdict -V --version -V
verdict D: SY 0x1 +take --help
verdict -- D: SY 0x1
verdict -- -h SY 0x1
verdict -- --help SY 0x1
verdict -- -- SY 0x1
verdict -- -- -- -- --
print D:
print ''
print -
print help
print -V
print --version
print -hx
print -- D:
--caret print D:
--caret --stdin print
--caret --json each print
--caret rights FR
--caret frombin 00
--names frombin 00
--names --mapping key frombin 00
show D:
show -- -h
--stdin show
--names --mapping key --domain S-1-5-21-1-2-3 --aliases --json --color --caret --strict-status show D:
diff D: D:
diff -- -h D:
diff -x --y
--stdin --names diff D:
--json each show
--caret each --key diff D:
each --pairs diff
each --pairs -0 --key compare
--names each --key --pairs compare WD
print --caret
print -- -h
print -- --
tobin -- --help
frombin -01
script
script --
serve
serve --
audit 2
audit 64
audit -- 01
"""

# A flag for help among several arguments is one of them; `clap` prints help.
HELP_FLAGS_ARE_ARGUMENTS = r"""
--domain x print -h
verdict -h SY 0x1
verdict --help SY 0x1
verdict D: -h 0x1
verdict D: SY --help
verdict D: SY 0x1 -h
verdict D: SY 0x1 --help
print -hh
frombin -hh
"""

# `--` is dropped only where it is the first argument after a command; `clap` drops the first one, wherever it is.
LATER_DASHES_ARE_ARGUMENTS = r"""
verdict D: -- SY
verdict D: SY --
"""

HELP = r"""
help each
each --help
-h
--help
help
help help
help verdict
help why
help lint
lint -h
lint --help
help print
help tobin
help frombin
help show
help diff
show -h
show --help
diff -h
diff --help
verdict -h
verdict --help
why -h
why --help
print -h
print --help
tobin -h
tobin --help
frombin -h
frombin --help
help script
script -h
script --help
help serve
serve -h
serve --help
help audit
audit -h
audit --help
"""

VERSION = r"""
-V
--version
"""

# Rejected, with the argument that the message names, counted from 1, and the mistake. `clap` accepts some of them: an option
# before any command or with its value after a `=`, help and the version beside other arguments, any number of workers, any
# arguments after the command of `each`, and a later `--`, which it drops.
REJECTED = r"""
3 SurplusArgument | serve -- --ids
3 SurplusArgument | serve --ids --ids
2 RepeatedOption | --percent --percent script
2 RepeatedOption | --caret --caret print D:
2 RepeatedOption | --strict --strict script
2 RepeatedOption | --loose --loose frombin 00
2 MissingArgument | each
3 MissingArgument | each -0
2 RepeatedOption | --whole --whole print D:
2 RepeatedOption | --aliases --aliases print D:
2 RepeatedOption | --base64 --base64 frombin 00
3 RepeatedOption | --mapping key --mapping key lint D:
3 RepeatedOption | --nodes 1 --nodes 1 script
3 UnknownCommand | --mapping lint D:
2 NoCommand | --names
2 UnknownCommand | --names ''
2 UnknownCommand | --names frob
5 MissingArgument | --names why D: SY
2 RepeatedOption | --names --names why D: SY 0x1
1 UnknownOption | --names=x why D: SY 0x1
1 UnknownOption | --name why D: SY 0x1
1 NoValue | --domain
3 NoCommand | --domain x
1 NoValue | --nodes
3 NoCommand | --edits 1
3 UnknownCommand | --domain print D:
3 RepeatedOption | --domain x --domain y print D:
4 MissingArgument | --domain x print
1 NoCommand |
1 UnknownCommand | ''
1 UnknownOption | -
1 UnknownOption | --
1 UnknownCommand | frob
1 UnknownCommand | Verdict
1 UnknownCommand | 'verdict '
2 SurplusArgument | script x
2 SurplusArgument | serve x
2 MissingArgument | audit
3 SurplusArgument | audit 2 3
1 UnknownOption | -x
1 UnknownOption | --frob
1 UnknownOption | --help=
1 UnknownOption | --help=x
1 UnknownOption | --version=x
1 UnknownOption | -- help
1 UnknownOption | -- --help
1 UnknownOption | -- print D:
1 UnknownCommand | '' print D:
2 UnknownCommand | help ''
2 UnknownCommand | help frob
2 UnknownCommand | help -h
2 UnknownCommand | help --help
2 UnknownCommand | help --
1 NotAlone | help -- print
1 NotAlone | help print D:
1 NotAlone | help print -h
1 NotAlone | help print print
2 MissingArgument | verdict
3 MissingArgument | verdict D:
4 MissingArgument | verdict D: SY
4 MissingArgument | verdict '' ''
3 MissingArgument | verdict -V
3 MissingArgument | verdict --
4 MissingArgument | verdict -- -h
5 MissingArgument | verdict -- D: SY
5 MissingArgument | verdict -- -- SY
2 MissingArgument | print
3 MissingArgument | print --
3 SurplusArgument | print D: D:
3 SurplusArgument | print '' ''
4 SurplusArgument | print -- D: D:
4 SurplusArgument | print -- -- D:
4 SurplusArgument | print -- D: --
3 SurplusArgument | frombin 00 --version
3 SurplusArgument | print D: --
3 SurplusArgument | frombin 00 --
1 NotAlone | -h -h
1 UnknownOption | -hh
1 UnknownOption | -hV
1 NotAlone | --help print
1 NotAlone | -h print D:
4 MissingArgument | verdict -h SY
4 MissingArgument | verdict --help SY
4 MissingArgument | verdict D: -h
4 MissingArgument | verdict D: --help
3 MissingArgument | verdict -hh
3 SurplusArgument | print -h -h
3 SurplusArgument | print -h D:
3 SurplusArgument | print D: --help
3 SurplusArgument | tobin --help ''
1 NotAlone | -V -V
1 UnknownOption | -VV
1 UnknownOption | -Vh
1 NotAlone | --version x
3 NotAlone | --domain x --help
2 NotAlone | --names --help
2 NotAlone | --names help
2 NotAlone | --names help why
2 NotAlone | --names help help
4 MissingArgument | --names why -h
2 NotAlone | --names --version
1 UnknownOption | --without-sacl print D:
1 MisplacedOption | --whole rights FR
1 MisplacedOption | --whole show D:
1 MisplacedOption | --require-dacl diff D: D:
2 MissingArgument | show
3 MissingArgument | diff D:
3 MissingArgument | --stdin diff
3 MissingArgument | each diff
4 SurplusArgument | each --pairs diff D:
3 NoPairs | each --pairs verdict SY 0x1
3 NoPairs | each --pairs print
3 SurplusArgument | show D: D:
4 SurplusArgument | diff D: D: WD
1 MisplacedOption | --whole each sid
2 NotAlone | --whole help
1 MisplacedOption | --percent print D:
1 MisplacedOption | --strict each print
1 MisplacedOption | --nodes 2 print D:
1 MisplacedOption | --edits 2 each print
1 MisplacedOption | --require-dacl script
1 MisplacedOption | --aliases frombin 00
1 MisplacedOption | --loose script
1 MisplacedOption | --base64 tobin D:
1 MisplacedOption | --mapping key tobin D:
1 ExcludedOption | --base64 --loose frombin 00
1 LacksWhole | --type 1 verdict D: SY 0x1
1 LacksWhole | --type 1 --object compare D: D:
1 LacksWhole | --schema f --type 1 who D: 0x1
1 LacksWhole | --type 1 lint D:
2 LacksObject | --whole --type 1 lint D:
2 LacksObject | --whole --schema f lint D:
2 MisplacedOption | --whole --schema f sort D:
1 LacksObject | --self PS --whole lint D:
1 LacksObject | --self PS --whole each lint
3 LacksWhole | --stdin --names --self PS why SY 0x1
2 ExcludedOption | --whole --self PS --below who D: 0x1
11 TooManyTypes | --type 1 --type 2 --type 3 --type 4 --type 5 --type 6 --whole why D: SY 0x1
4 RepeatedOption | --whole --self PS --self PS why D: SY 0x1
1 MisplacedOption | --type 1 sort D:
2 MisplacedOption | --whole --self PS print D:
1 MisplacedOption | --domain x frombin 00
1 MisplacedOption | --domain x rights FR
1 UnknownOption | --domain=x print D:
3 MisplacedOption | --domain x --names tobin D:
3 MisplacedOption | --domain --loose --base64 print D:
1 MisplacedOption | --names tobin D:
1 MisplacedOption | --names each tobin
1 MisplacedOption | --caret script
1 MisplacedOption | --caret serve
1 MisplacedOption | --caret audit 1
2 MisplacedOption | --percent --caret script
1 MisplacedOption | --stdin rights
2 NoText | --stdin script
2 NoText | --stdin each print
3 MissingArgument | --stdin verdict
3 SurplusArgument | --stdin print D:
2 NoWorkers | audit ''
2 NoWorkers | audit 0
2 NoWorkers | audit 00
2 NoWorkers | audit 65
2 NoWorkers | audit 001
2 NoWorkers | audit -1
2 NoWorkers | audit +1
2 NoWorkers | audit '1 '
2 NoWorkers | audit 1/
2 NoWorkers | audit two
2 NoWorkers | audit 18446744073709551616
3 NoWorkers | audit -- 0
3 UnknownOption | each -- -0 print
2 UnknownCommand | each frob
2 NoText | each script
2 NoText | each each print
3 SurplusArgument | each print D:
4 MissingArgument | each verdict SY
3 SurplusArgument | each print -0
"""

# The mistakes, by number from 1.
MISTAKES = """NoCommand UnknownCommand UnknownOption NotAlone RepeatedOption NoValue MisplacedOption ExcludedOption NoText
MissingArgument SurplusArgument NoWorkers LacksWhole TooManyTypes LacksObject NoPairs""".split()


def is_help(status, output, errors):
    return status == 0 and "Usage: sdstore" in output and not errors


def is_version(status, output, errors):
    return status == 0 and output.startswith("sdstore 0.") and not errors


def is_command(status, output, errors):
    return status < 2 and not is_help(status, output, errors) and not is_version(status, output, errors)


def is_rejected_for(place, name):
    begins = "sdstore: argument " + place
    ends = "(%d %s)" % (MISTAKES.index(name) + 1, name)

    def holds(status, output, errors):
        line = errors.partition("\n")[0]
        return status == 2 and not output and line.startswith((begins + ":", begins + ", ")) and line.endswith(ends)

    return holds


def cases():
    """What holds of a line, beside it, of each table."""
    accepted = (
        (is_command, COMMANDS + HELP_FLAGS_ARE_ARGUMENTS.lstrip() + LATER_DASHES_ARE_ARGUMENTS.lstrip()),
        (is_help, HELP),
        (is_version, VERSION),
    )
    for holds, table in accepted:
        for line in table[1:-1].split("\n"):
            yield holds, line
    for row in REJECTED[1:-1].split("\n"):
        mistake, _, line = row.partition(" |")
        yield is_rejected_for(*mistake.split()), line.strip(" ")


def passes(case):
    holds, line = case
    run = subprocess.run([PROGRAM] + shlex.split(line), stdin=subprocess.DEVNULL, capture_output=True, timeout=120)
    if holds(run.returncode, run.stdout.decode(), run.stderr.decode()):
        return True
    print("parsing.py: sdstore %s: status %d, %r, %r" % (line, run.returncode, run.stdout[:60], run.stderr[:60]))
    return False


def main():
    rows = list(cases())
    with ThreadPoolExecutor(4) as pool:
        passed = sum(pool.map(passes, rows))
    print("%d passed, %d failed" % (passed, len(rows) - passed))
    return passed != len(rows)


sys.exit(main())
