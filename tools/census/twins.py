# Groups of functions whose bodies are equal once names, numbers, types and texts are taken out. Run at the top of a clone.
import re, glob, collections
fns = collections.defaultdict(list)
for f in sorted(glob.glob('crates/*/src/*.rt')):
    t = re.sub(r'//.*', '', open(f).read())
    for m in re.finditer(r'^(?:pub(?:\(crate\))? )?fn (\w+).*?^\{\n(.*?)^\}|^(?:pub(?:\(crate\))? )?fn (\w+)[^\n]*\{\n(.*?)^\}', t, re.M | re.S):
        name, body = m.group(1) or m.group(3), m.group(2) or m.group(4)
        body = re.sub(r'b?"[^"]*"', '"', body)
        body = re.sub(r'\b(?!if\b|else\b|match\b|while\b|for\b|in\b|let\b|mut\b|return\b|true\b|false\b)[A-Za-z_]\w*\b', 'x', body)
        body = re.sub(r'\b(true|false)\b', 'x', re.sub(r'\d+', '0', body))
        fns[re.sub(r'\s+|,(?=\s*[)}])', '', body)].append(f.split('/')[1] + '::' + f.split('/')[3][:-3] + '::' + name)
groups = sorted((g for b, g in fns.items() if len(g) > 1 and len(b) > 30), key=lambda g: -len(g))
for g in groups: print(len(g), ' '.join(g))
print(len(groups), 'groups,', sum(map(len, groups)), 'functions')
