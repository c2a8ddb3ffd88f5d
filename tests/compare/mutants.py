#!/usr/bin/env python3
"""Slips in the model and faults of the library, one at a time, each of which the comparison has to report.

mutants.py            tries all of them
mutants.py NUMBER..   tries these

The model, the comparison and what they need are copied below target/mutants. A slip is exact texts of one file of the model with other
texts in their places; each must stand there once. A fault is C code that a function in front of an exported call runs behind it. Each
is reported where the comparison, perhaps one part of it alone, exits with 1 and names a deviation; without any of them it must exit with
0. Each is one line, 'ok - ..' or 'not ok - ..'. Exits 0 only where all are ok. Needs cargo, cc, ar and objcopy.
"""
import pathlib
import re
import shutil
import subprocess
import sys

ROOT = pathlib.Path(__file__).resolve().parent.parent.parent
COPY = ROOT / 'target' / 'mutants'
ARCHIVE = 'target/staticlib/libscaltrovina.a'
COPIED = ['reference/Cargo.toml', 'reference/src', 'tests/compare/Cargo.toml', 'tests/compare/build.rs', 'tests/compare/src',
          'tests/compare/corpus', ARCHIVE]

# What is wrong, the file of the model, what stands there, what takes its place, and so on by twos.
SLIPS = [
    ('a ninth child is taken', 'line.rs',
     'refuse_if(children.len() >= 8, 12)',
     'refuse_if(children.len() >= 9, 12)'),
    ('the SPI 255 is in range', 'line.rs',
     '(256..=4_294_967_295).contains(&spi)',
     '(255..=4_294_967_295).contains(&spi)'),
    ('NAS of 2,048 octets is too long', 'packet.rs',
     '(1..=2048).contains(&nas.len())',
     '(1..2048).contains(&nas.len())'),
    ('two timer units are exchanged', 'hold.rs',
     '[600, 3600, 36_000, 2, 30, 60, 1_152_000]',
     '[600, 3600, 36_000, 2, 60, 30, 1_152_000]'),
    ('an address is still held at the moment of the end', 'hold.rs',
     '|until| time < until',
     '|until| time <= until'),
    ('an ended hold is kept', 'line.rs',
     '.filter(|hold| hold.is_in_force_at(time))',
     '.filter(|_| true)'),
    ('no reply is taken for no PLMN', 'line.rs',
     '(replied == 1).then_some(networks.as_slice())',
     'Some(networks.as_slice())'),
    ('a registered home PLMN does not count as none', 'selection.rs',
     'self.registered.filter(|plmn| *plmn != home)',
     'self.registered.filter(|_| home.mcc < 1000)'),
    ('a tie goes to the later plmn record', 'config.rs',
     'candidates.min_by_key(',
     'candidates.rev().min_by_key('),
    ('the home PLMN is barred at home', 'selection.rs',
     'None => ask_operator(config.home),',
     'None if config.bars(config.home) => stop(3),\n        None => ask_operator(config.home),'),
    ('the chosen address counts as passed over', 'selection.rs',
     'Accepted { passed, address:',
     'Accepted { passed: passed + 1, address:'),
    ('Success is taken with any identifier', 'line.rs',
     ' if identifier == *last => {',
     ' if identifier <= 255.max(*last) => {'),
    ('the first reply needs no AN-parameters', 'line.rs',
     'refuse_if(first_is_owed && parameters.is_empty(), 8)?;',
     'refuse_if(first_is_owed && nas.is_empty(), 8)?;'),
    ('unauthenticated congestion is believed', 'line.rs',
     'refuse_if(authenticated == 0, 10)?;',
     ''),
    ('an early time is refused only behind its range', 'table.rs',
     'refuse_if(time < line.time, 7)?;\n        refuse_if(time > 4_294_967_295, 8)?;\n        let mut later = line.at(time);\n'
     '        let accepted = later.happen(event)?;',
     'refuse_if(time > 4_294_967_295, 8)?;\n        let mut later = line.at(time);\n'
     '        let accepted = later.happen(event)?;\n        refuse_if(time < line.time, 7)?;'),
    ('an IKE delete leaves the line sure', 'line.rs',
     '(Event::IkeDelete, Phase::Live(..)) => self.enter(Phase::Idle, Action::Release)',
     '(Event::IkeDelete, Phase::Live(address, _)) => self.enter(Phase::Sure(*address), Action::Release)'),
    ('a refused call leaves a number in its answer', 'answer.rs',
     'Err(Refused(refusal)) => (refusal, Accepted::default()),',
     'Err(Refused(refusal)) => (refusal, Accepted { error: refusal, ..Accepted::default() }),'),
    ('a refused response leaves an octet in its buffer', 'packet.rs',
     'Err(Refused(refusal)) => (refusal, [0; 6], Vec::new()),',
     'Err(Refused(refusal)) => (refusal, [0; 6], vec![RESPONSE]),'),
    ('a parameter starts at its type', 'packet.rs',
     '(next - value.len()) as u64, value.len() as u64, next as u64',
     '(next - value.len() - 2) as u64, value.len() as u64, next as u64'),
    ('a response has the place of its NAS without the length', 'packet.rs',
     'let nas_start = FIRST_FIELD + parameters.len() + 2;',
     'let nas_start = FIRST_FIELD + parameters.len();'),
    ('closing keeps the children for the line that is opened next', 'table.rs',
     'self.lines.iter().map(|(pair, line)| (*pair, line))',
     'self.lines.iter().filter(|(pair, _)| exists(**pair)).map(|(pair, line)| (*pair, line))',
     'refuse_if(self.lines.len() >= 32, 6)?;\n        self.lines.insert(pair, Line::default());',
     'refuse_if(self.lines().count() >= 32, 6)?;\n        let kept = self.lines.remove(&(pair.0 + 16, pair.1)).unwrap_or_default();\n'
     '        self.lines.insert(pair, Line { phase: kept.phase, ..Line::default() });',
     'self.lines.remove(&pair).map(|_| Accepted::default()).ok_or(Refused(5))',
     'let closed = self.lines.remove(&pair).ok_or(Refused(5))?;\n        if matches!(closed.phase, crate::line::Phase::Live(..)) {\n'
     '            self.lines.insert((pair.0 + 16, pair.1), closed);\n        }\n        Ok(Accepted::default())'),
    ('one clock for all lines', 'table.rs',
     'let line = self.lines.get_mut(&pair).ok_or(Refused(5))?;\n        refuse_if(time < line.time, 7)?;',
     'let latest = self.lines.values().map(|line| line.time).max();\n'
     '        let line = self.lines.get_mut(&pair).ok_or(Refused(5))?;\n        refuse_if(Some(time) < latest, 7)?;'),
]

# What is wrong, the call, what runs behind it, and arguments of the comparison; `refusal` is what the call returned.
FAULTS = [
    ('the listing goes on behind its buffer', 'scal_list', 'if (!refusal) listing[listing_length] ^= 1;'),
    ('a refused begin changes the table', 'scal_begin', 'if (refusal == 10) table[4] ^= 1;'),
    ('a reply leaves an octet behind the response', 'scal_reply', 'if (!refusal) reply[reply_length - 1] = 1;'),
    ('start changes the lent text', 'scal_start', 'if (text_length > 300) ((uint8_t *)text)[0] ^= 1;'),
    ('the final answer has a thirteenth number', 'scal_final', 'if (!refusal) (&answer->action)[12] ^= 1;'),
    ('open changes the record of another pair', 'scal_open', 'if (!refusal && table[243]) table[4] |= 1;'),
    ('close takes some tables that are not sound', 'scal_close', 'if (refusal == 1 && table_length == 7776) refusal = 5;'),
    ('an IKE delete takes tables of twice the length', 'scal_ike_delete', 'if (refusal == 1 && table_length == 2 * 7776) refusal = 10;'),
    ('a give up changes unsound tables that end in 255', 'scal_give_up',
     'if (refusal == 1 && table_length == 7776 && table[7775] == 255) table[0] ^= 1;'),
    ('open takes the last record while others are free', 'scal_open',
     'if (!refusal && table[20 * 243] && !table[31 * 243])\n'
     '        for (size_t at = 0; at < 31 * 243; at += 243)\n'
     '            if (table[at] == 1 + 4 * tenant + line) {\n'
     '                table[31 * 243] = table[at];\n'
     '                table[at] = 0;\n'
     '            }'),
    ('close erases the last record where it has a hold that ends from 2^33 on', 'scal_close',
     'for (size_t hold = 31 * 243 + 27; hold < 31 * 243 + 203; hold += 22)\n'
     '        if (!refusal && table[hold + 17] >= 2)\n'
     '            for (size_t at = 31 * 243; at < 32 * 243; at++)\n'
     '                table[at] = 0;'),
    ('begin shows the time of another line', 'scal_begin', 'if (!refusal && table[4] & 1) answer->error = 1;', '--part', 'pairs'),
]


def copy():
    """Copies without the times of the files, by which cargo would take a copy for one that is built already."""
    for name in COPIED:
        source, target = ROOT / name, COPY / name
        target.parent.mkdir(parents=True, exist_ok=True)
        if source.is_dir():
            shutil.rmtree(target, ignore_errors=True)
            shutil.copytree(source, target, copy_function=shutil.copyfile)
        else:
            shutil.copyfile(source, target)


def run(*command, **options):
    return subprocess.run(command, capture_output=True, encoding='utf-8', **options)


def fault(*arguments):
    """None where the comparison of the copy reports a deviation, else what it does; '' where it reports nothing."""
    target = COPY / 'target' / 'compare'
    built = run('cargo', 'build', '--release', '--offline', '--target-dir', target, cwd=COPY / 'tests' / 'compare')
    if built.returncode:
        return 'it cannot be built: ' + built.stderr
    compared = run(target / 'release' / 'compare', *arguments)
    if compared.returncode == 1 and '\ndeviation' in compared.stdout:
        return None
    return '' if compared.returncode == 0 else f'status {compared.returncode}: {compared.stdout}{compared.stderr}'


def slipped(name, *texts):
    """Why a slip is not reported, or None where it is."""
    path = COPY / 'reference' / 'src' / name
    whole = slip = path.read_text(encoding='utf-8')
    for old, new in zip(texts[::2], texts[1::2]):
        if whole.count(old) != 1:
            return f'this text stands {whole.count(old)} times in {name}: {old}'
        slip = slip.replace(old, new)
    path.write_text(slip, encoding='utf-8')
    found = fault()
    path.write_text(whole, encoding='utf-8')
    return found


def prototypes():
    """The exported calls with their parameters."""
    header = (ROOT / 'include' / 'scaltrovina.h').read_text(encoding='utf-8')
    return [(name, ' '.join(parameters.split())) for name, parameters in re.findall(r'^uint64_t (scal_\w+)\(([^;]*)\);', header, re.M)]


def front(call, code):
    """Functions in front of all exported calls, of which one does something more."""
    lines = ['#include <scaltrovina.h>']
    for name, parameters in prototypes():
        arguments = [] if parameters == 'void' else [each.split()[-1].lstrip('*') for each in parameters.split(',')]
        lines.append(f'uint64_t real_{name}({parameters});')
        lines.append(f'uint64_t {name}({parameters})\n{{')
        lines.append(f'    uint64_t refusal = real_{name}({", ".join(arguments)});')
        lines.append(f'    {code if name == call else ""}\n    return refusal;\n}}')
    return '\n'.join(lines) + '\n'


def faulty(call, code, *arguments):
    """Why a fault of the library is not reported, or None where it is."""
    folder, archive = COPY / 'target' / 'front', COPY / ARCHIVE
    shutil.rmtree(folder, ignore_errors=True)
    folder.mkdir(parents=True)
    (folder / 'front.c').write_text(front(call, code), encoding='utf-8')
    renamed = [each for name, _ in prototypes() for each in ('--redefine-sym', f'{name}=real_{name}')]
    for command in (['objcopy', *renamed, ROOT / ARCHIVE, 'real.a'], ['ar', 'x', 'real.a'],
                    ['cc', '-fPIC', '-I', ROOT / 'include', '-c', 'front.c']):
        done = run(*command, cwd=folder)
        if done.returncode:
            return f'{command[0]}: {done.stderr}'
    archive.unlink()
    done = run('ar', 'rcs', archive, *sorted(folder.glob('*.o')))
    found = done.stderr or fault(*arguments)
    shutil.copyfile(ROOT / ARCHIVE, archive)
    return found


def told(number, what, found):
    """One line; whether it is ok."""
    why = '' if found is None else ': ' + (found or 'not reported')
    print(f'{"not ok" if why else "ok"} - {number} {what}{why}', flush=True)
    return not why


def main(arguments):
    copy()
    found = fault()
    if found != '':
        told('-', 'the copy without a slip', 'a deviation' if found is None else found)
        return 1
    trials = [(what, slipped, rest) for what, *rest in SLIPS] + [(what, faulty, rest) for what, *rest in FAULTS]
    numbers = [int(each) for each in arguments] or range(len(trials))
    passed = [told(number, trials[number][0], trials[number][1](*trials[number][2])) for number in numbers]
    print(f'{sum(passed)} passed, {len(passed) - sum(passed)} failed')
    return 0 if all(passed) else 1


if __name__ == '__main__':
    sys.exit(main(sys.argv[1:]))
