#!/usr/bin/env python3
"""definitions.py CRATE [TINY SMALL DAMAGED SEED]: has the checker compute the definitions of a crate on generated records.
definitions.py CRATE boundary: the same on the records at the boundary of each refusal.

CRATE is the folder of nll_spec. It is copied to a temporary folder, where a module `Trial` is added to its specs: a theorem for
every 20 records says that `Output.analyse` gives the recorded number, words and bytes. Then `rt check` proves the copy, and must
refuse another with one recorded byte changed.
The recorded answers come from `compare answers`: the original's where it judges, else the model's.
Run it in rust/, after `cargo build --release`."""
import glob, os, re, shutil, subprocess, sys, tempfile
from collections import Counter

BATCH = 20
FILL = 7  # what the buffers hold before the call
NAMESPACE = 'Rattle.nll_spec.specs'


def lines(command, text=None):
    return subprocess.run(command, input=text, capture_output=True, text=True, check=True).stdout.split('\n')[:-1]


def generated(family, seed, count, longest):
    """So many records of a family of at most so many bytes."""
    found = lines(['target/release/generate', family, str(seed), str(20 * count)])
    return [record for record in found if len(record) <= 2 * longest][:count]


def records(tiny, small, damaged, seed):
    return generated('tiny', seed, tiny, 120) + generated('small', seed, small, 150) + generated('damaged', seed, damaged, 80)


def wanted(words):
    if words == ['boundary']:
        return [record for record in lines(['target/release/generate', 'boundary']) if len(record) <= 2 * 250]
    return records(*[int(word) for word in words] + [320, 30, 150, 1][len(words):])


def answers(found):
    rows = []
    for line in lines(['target/release/compare', 'answers'], '\n'.join(found) + '\n'):
        number, words, bytes_ = line.split(' ')
        rows.append((int(number), eval(words), eval(bytes_)))
    return rows


def modules(crate):
    """Output and the modules that it uses."""
    found, pending = [], ['Output']
    while pending:
        module = pending.pop()
        if module not in found:
            found.append(module)
            text = open(f'{crate}/specs/{module}.antt', encoding='utf-8').read()
            pending += re.findall(rf'^use {NAMESPACE}\.(\w+)\.', text, re.M)
    return sorted(found)


def unfoldable(crate, module):
    """The names that a computed theorem must open, of a mutual group the first."""
    text = open(f'{crate}/specs/{module}.antt', encoding='utf-8').read()
    names = re.findall(r'^ *unfoldable pub (\S+)', text, re.M)
    for group in re.finditer(r'^( *)unfoldable mutual\n((?:\1 +.*\n|\n)*)', text, re.M):
        names += re.findall(r'^ *pub (\S+) :', group.group(2), re.M)[:1]
    return list(dict.fromkeys(names))


def numbers(items):
    return '(' + ' ∷ '.join([str(n) for n in items] + ['[]']) + ')'


def lent(need, short, spare):
    """The length of a buffer: what is needed and some more, or one less."""
    return need - 1 if short and need else need + spare


def row(index, record, answer):
    """One record: every sixth, if it is accepted, gets a buffer that is one too short."""
    number, words, bytes_ = answer
    short_bytes = number == 0 and index % 12 == 5
    short_words = number == 0 and index % 12 == 11 and len(words) > 0
    word_count, byte_count = lent(len(words), short_words, 1), lent(len(bytes_), short_bytes, 2)
    if short_bytes or short_words:
        number, words, bytes_ = 10, [], []
    literal = '0x' + record if record else '0'
    return f'row {len(record) // 2} {literal} {word_count} {byte_count} {number} {numbers(words)} {numbers(bytes_)}'


HEADER = '''-- Generated records with the recorded answers, which the checker computes.
use Rattle.std.specs.Prelude.{Bool, true, false, ◌&&◌, List, [], ◌∷◌, ◌++◌, ℕ, zero, suc, ◌/◌, ◌%◌, length, drop, replicate, T, eqb}
'''

DEFINITIONS = f'''
-- A record, the lengths of both buffers, the number that the call returns, and the words and bytes that it writes.
pub record TrialRow : Type 0 where
  pub trial_input : List ℕ
  pub trial_word_count : ℕ
  pub trial_byte_count : ℕ
  pub trial_number : ℕ
  pub trial_words : List ℕ
  pub trial_bytes : List ℕ

-- the n bytes of a number, the highest first, before those given
abbrev pub trial_big_endian : ℕ → ℕ → List ℕ → List ℕ
trial_big_endian zero x rest = rest
trial_big_endian (suc n) x rest = trial_big_endian n (x / 256) (x % 256 ∷ rest)

abbrev pub row : ℕ → ℕ → ℕ → ℕ → ℕ → List ℕ → List ℕ → TrialRow
row n x w b k ws bs =
    record {{ trial_input = trial_big_endian n x []; trial_word_count = w; trial_byte_count = b; trial_number = k; trial_words = ws; trial_bytes = bs }}

abbrev pub trial_same : List ℕ → List ℕ → Bool
trial_same [] [] = true
trial_same [] (y ∷ ys) = false
trial_same (x ∷ xs) [] = false
trial_same (x ∷ xs) (y ∷ ys) = eqb x y && trial_same xs ys

abbrev pub trial_every : (TrialRow → Bool) → List TrialRow → Bool
trial_every f [] = true
trial_every f (x ∷ xs) = f x && trial_every f xs

abbrev pub trial_after : List ℕ → List ℕ → List ℕ
trial_after new old = new ++ drop (length new) old

unfoldable pub trial_passes : TrialRow → Bool
trial_passes r =
    let ws : List ℕ = replicate r.trial_word_count {FILL} in
    let bs : List ℕ = replicate r.trial_byte_count {FILL} in
    let o = analyse every_end r.trial_input ws bs in
    eqb o.number r.trial_number && trial_same o.words (trial_after r.trial_words ws) && trial_same o.bytes (trial_after r.trial_bytes bs)
'''


def trial_text(crate, rows):
    opened = {m: unfoldable(crate, m) for m in modules(crate)}
    uses = ''.join(f'use {NAMESPACE}.{m}.{{{", ".join(names)}}}\n' for m, names in opened.items() if names)
    if 'every_end' not in opened['Regions']:
        uses += f'use {NAMESPACE}.Regions.{{every_end}}\n'
    unfolding = ' '.join(name for names in opened.values() for name in names)
    text = HEADER + uses + DEFINITIONS
    for batch, first in enumerate(range(0, len(rows), BATCH)):
        listed = '\n    ∷ '.join(rows[first:first + BATCH] + ['[]'])
        text += f'\nunfoldable pub trial_rows{batch} : List TrialRow\ntrial_rows{batch} =\n    {listed}\n'
        text += f'\npub trial-{batch} : T (trial_every trial_passes trial_rows{batch})\n'
        text += f'unfolding trial_rows{batch} trial_passes {unfolding}\ntrial-{batch} = tt\n'
    return text


def spoiled(record):
    """The row of an accepted record with another first byte in its answer."""
    (number, words, bytes_), = answers([record])
    return row(0, record, (number, words, [bytes_[0] + 1] + bytes_[1:]))


def check(crate, rows, quiet=False):
    """Proves a copy of the crate with the rows, and gives the exit status."""
    with tempfile.TemporaryDirectory() as folder:
        copy = os.path.join(folder, 'crates', 'nll_spec')
        shutil.copytree(crate, copy, ignore=shutil.ignore_patterns('must-fail', 'out'))
        with open(f'{folder}/crates.txt', 'w', encoding='utf-8') as out:
            out.write('nll_spec:\n')
        for file in glob.glob(f'{copy}/**', recursive=True) + [copy]:
            os.chmod(file, 0o755 if os.path.isdir(file) else 0o644)
        with open(f'{copy}/specs/Trial.antt', 'w', encoding='utf-8') as out:
            out.write(trial_text(copy, rows))
        with open(f'{copy}/specs/Lib.antt', 'a', encoding='utf-8') as out:
            out.write('pub mod Trial\n')
        return subprocess.run(['rt', 'check'], cwd=copy, capture_output=quiet).returncode


def main():
    if len(sys.argv) < 2:
        sys.exit(__doc__)
    found = wanted(sys.argv[2:])
    given = answers(found)
    rows = [row(index, record, answer) for index, (record, answer) in enumerate(zip(found, given))]
    counts = Counter(int(text.split(' ')[5]) for text in rows)
    print('records by number: ' + ', '.join(f'{number}: {counts[number]}' for number in sorted(counts)), flush=True)
    status = check(sys.argv[1], rows)
    print(f'{len(rows)} records in {-(-len(rows) // BATCH)} theorems: {"proved" if status == 0 else "NOT PROVED"}')
    accepted = next(record for record, answer in zip(found, given) if answer[0] == 0)
    refused = check(sys.argv[1], [spoiled(accepted)], quiet=True) == 1
    print(f'a spoiled record: {"refused, as it must be" if refused else "NOT REFUSED"}')
    sys.exit(status if refused else 1)


if __name__ == '__main__':
    main()
