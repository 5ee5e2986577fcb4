# Facts (by head symbol) that stand in the requires of three or more functions, and runs of two or more parameters that do. At the top of a clone.
import re, glob, collections
facts, runs = collections.defaultdict(set), collections.defaultdict(set)
for f in sorted(glob.glob('crates/*/src/*.rt')):
    t = re.sub(r'//.*', '', open(f).read())
    for m in re.finditer(r'^(?:pub(?:\(crate\))? )?fn (\w+)(?:<[^>]*>)?\((.*?)\)((?: -> [^\n{]*)?(?:\n    (?:requires|ensures)[^\n]*)*)', t, re.M | re.S):
        who = f.split('/')[1] + '::' + m.group(1)
        ps = [p.strip() for p in re.sub(r'\s+', ' ', m.group(2)).split(', ') if ':' in p]
        for i in range(len(ps)):
            for j in range(i + 2, len(ps) + 1): runs[', '.join(p.rstrip(',') for p in ps[i:j])].add(who)
        for c in re.findall(r'requires[^{\n]*\{ (.*) \}', m.group(3)):
            for p in re.split(r' × ', c):
                h = re.match(r'[( ]*(?:floor : ℕ\) × )?\(*([A-Z]\w*)', p)
                if h: facts[h.group(1)].add(who)
for k, v in sorted(facts.items(), key=lambda x: -len(x[1])):
    if len(v) > 2: print(len(v), k)
three = {k: v for k, v in runs.items() if len(v) > 2}
long = {k: v for k, v in three.items() if not any(k != o and k in o and len(three[o]) >= len(v) for o in three)}
for k, v in sorted(long.items(), key=lambda x: -len(x[1])): print(len(v), '(' + k + ')')
print(sum(len(v) > 2 for v in facts.values()), 'facts,', len(long), 'runs')
