#!/usr/bin/env python3
"""Compares what `model cases FILE` prints with what the case files say, worked out by hand from the rules.

check_cases.py [-v] [FILES]: -v prints the closing lines of every case; the file is by default the one of crates/compared_cases.
MODEL names the program, by default the model in tests/model, built by tests/compare.
`#:` lines: the numbers of the replies, in order.
`#=` lines: `N: WORDS` the reply N in whole, `N: data HEX` its data-in, `stores ..` the closing line,
`found B:FILL:K/L ..` the blocks found on the medium.
"""
import os, pathlib, subprocess, sys

HERE = pathlib.Path(__file__).parent
MODEL = os.environ.get('MODEL', str(HERE / 'model/target/release/model'))
# number: status, sense key, ASC, ASCQ (6: the key alone)
CODES = {0: '00 00 00 00', 1: 'ff 00 00 00', 2: 'ff 00 00 00', 3: '02 05 20 00', 4: '02 05 24 00',
         5: '02 05 24 00', 6: '02 06', 7: '18 00 00 00', 8: '02 05 24 00', 9: '02 02 3a 00',
         10: '02 02 04 02', 11: '02 05 21 00', 12: '02 07 27 00', 13: '02 05 53 02', 14: '02 05 1a 00',
         15: '02 0b 4b 00', 16: '02 05 26 00'}


def unfold(data):
    out = ''
    for part in data.split('+'):
        b, x, n = part.partition('x')
        out += b * int(n) if x else b
    return out


def split(text):
    cases, cur = [], None
    for line in text.splitlines():
        if line.startswith('case '):
            cur = (line, [])
            cases.append(cur)
        elif cur is not None and line:
            cur[1].append(line)
    return cases


def main():
    args = sys.argv[1:]
    verbose = '-v' in args
    files = [a for a in args if a != '-v'] or [HERE / '../crates/compared_cases/stdin']
    bad = n = replies = 0
    for f in files:
        text = pathlib.Path(f).read_text()
        run = subprocess.run([MODEL, 'cases', str(f)], capture_output=True, text=True)
        got = split(run.stdout)
        want = split(text)
        if len(got) != len(want):
            print(f'{f}: {len(got)} cases answered of {len(want)}', run.stderr[:300])
            bad += 1
        for (head, lines), (ghead, glines) in zip(want, got):
            n += 1
            problems = []
            if head != ghead:
                problems.append(f'case line {ghead!r}')
            exp = [int(x) for l in lines if l.startswith('#:') for x in l[2:].split()]
            calls = [l for l in lines if not l.startswith('#')]
            if len(exp) != len(calls):
                problems.append(f'{len(exp)} numbers for {len(calls)} calls')
            k = next((i for i, l in enumerate(glines) if l.startswith('stores')), len(glines))
            rep, closing = glines[:k], glines[k:]
            replies += len(rep)
            nums = [int(r.split()[0]) if r.split()[0].isdigit() else r for r in rep]
            if nums != exp:
                at = next((i for i, (a, b) in enumerate(zip(nums, exp)) if a != b), min(len(nums), len(exp)))
                problems.append(f'number at {at + 1}: want {exp[at:at+1]} got {nums[at:at+1]}'
                                f' for {calls[at][:90] if at < len(calls) else "-"}')
            for call, r in zip(calls, rep):
                w = r.split()
                if len(w) < 6 or not w[0].isdigit() or int(w[0]) not in CODES:
                    problems.append(f'no reply: {r[:60]!r}')
                    continue
                code = call.split()[2][:2].lower() if call.startswith('command') else ''
                returns = w[0] == '0' and code in ('12', '1a', '25', '28')
                if not returns and w[5:] != ['0'] or returns and len(w) != (7 if w[5] != '0' else 6):
                    problems.append(f'bytes returned: {r[:60]} for {call[:60]}')
                if w[0].isdigit() and not ' '.join(w[1:5]).startswith(CODES[int(w[0])]):
                    problems.append(f'codes: {r[:60]}')
            for l in lines:
                if not l.startswith('#= '):
                    continue
                l = l[3:]
                if l.startswith('stores'):
                    if closing[:1] != [l]:
                        problems.append(f'closing: want {l!r} got {closing[:1]}')
                elif l.startswith('found'):
                    words = [] if l == 'found none' else l.split()[1:]
                    wl = []
                    for w in words:
                        b, c, kl = w.split(':')
                        kk, ll = kl.split('/')
                        wl.append(f'block {b} {c * 16} number {kk} of {ll}')
                    if wl != closing[1:]:
                        diff = [x for x in wl if x not in closing[1:]], [x for x in closing[1:] if x not in wl]
                        problems.append(f'found: wanted only {diff[0]} got only {diff[1]}')
                else:
                    i, _, rest = l.partition(': ')
                    r = rep[int(i) - 1] if int(i) <= len(rep) else ''
                    if rest.startswith('data'):
                        hexes = unfold(rest[4:].strip())
                        w = r.split() + [''] * 7
                        w[5] = w[5] if w[5].isdigit() else '0'
                        gothex = w[6]
                        if int(w[5]) * 2 != len(hexes) or gothex != hexes:
                            problems.append(f'reply {i}: want data {rest[:70]} got {r[:90]}')
                    elif r != rest:
                        problems.append(f'reply {i}: want {rest!r} got {r!r}')
            if verbose:
                print(head)
                print('   ', ' '.join(map(str, nums)))
                for c in closing:
                    print('   ', c)
            if problems:
                bad += 1
                print(f'{pathlib.Path(f).name}: {head}')
                why = [l for l in lines if l.startswith('# Why')]
                print('   ', (why or [''])[0][:160])
                for p in problems:
                    print('   ', p)
    print(f'{n} cases, {replies} replies, {bad} with differences')
    return 1 if bad else 0


sys.exit(main())
