# The while loops: those that step a name of their own condition by one (an index or a remaining number by hand), and the others.
import re, glob
hand, other = [], []
for f in sorted(glob.glob('crates/*/src/*.rt')):
    lines = open(f).read().split('\n')
    for i, l in enumerate(lines):
        m = re.match(r'(\s*)while (.*) \{$', l)
        if m:
            body = lines[i + 1:lines.index(m.group(1) + '}', i)]
            by_hand = any(re.match(r'\s*%s (\+|-)= 1;' % v, b) for v in re.findall(r'[a-z]\w*', m.group(2)) for b in body)
            (hand if by_hand else other).append(f'{f}:{i + 1} while {m.group(2)}')
print(*['hand  ' + x for x in hand], *['other ' + x for x in other], f'{len(hand)} by hand, {len(other)} others', sep='\n')
