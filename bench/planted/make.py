#!/usr/bin/env python3
"""make.py [--check]: the recordings of crates/simulate_audit/data, one for each planted error and one without, their names in args, and in stdout the
pages that the audit is to print, counted by page.py. With --check nothing is written; the status says whether all is as it was made."""
import pathlib
import sys

sys.dont_write_bytecode = True
HERE = pathlib.Path(__file__).resolve().parent
sys.path.insert(0, str(HERE))
import planted
import page

# two more recordings that must not pass: one of lines that are no calls, and one whose end is missing
NO_CALLS = ['> accpet 0 0 0 0 g x01 1 1', 'err 1', '> flash 10', 'err 2']
MISSING = 3

PROGRAM = HERE.parent.parent / 'crates/simulate_audit'


def main():
    script = (HERE / 'run.script').read_text().splitlines()
    made, told = {}, []
    recordings = {error or 'no_error': planted.recording(script, error) for error in [None, *planted.ERRORS]}
    recordings['no_calls'], recordings['cut_short'] = NO_CALLS, recordings['no_error'][:-MISSING]
    for error, lines in recordings.items():
        name = error + '.run'
        made['data/' + name] = '\n'.join(lines) + '\n'
        sheet = page.audited(lines)
        wrong = sheet[-1] != ('PASS' if error == 'no_error' else 'FAIL')
        told += ['AUDIT OF ' + name] + sheet
        print(f'{name:28} {sheet[-1]}', 'NOT AS PLANTED' if wrong else '')
        assert not wrong
    made['args'] = '\n'.join(['audit'] + [n[5:] for n in made]) + '\n'
    made['stdout'] = '\n'.join(told) + '\n'
    if '--check' in sys.argv:
        sys.exit(any((PROGRAM / n).read_text() != text for n, text in made.items()))
    for n, text in made.items():
        (PROGRAM / n).write_text(text)


main()
