#!/usr/bin/env python3
# Lists the places in crates/*/src that docs/DESIGN-PASS.md counts, kind by kind; tests are left out.
# Usage: python3 tools/places.py [FOLDER]. Twins are found by a command `duplicates`; where there is none they are left out.
import collections, os, re, shutil, subprocess, sys, tempfile

top = sys.argv[1] if len(sys.argv) > 1 else os.path.join(os.path.dirname(os.path.abspath(__file__)), '..')
os.chdir(top)
files = {}
for folder, _, names in os.walk('crates'):
    if '/src' in folder and '/out/' not in folder:
        for name in names:
            if name.endswith('.rt') and name != 'tests.rt':
                path = os.path.join(folder, name)
                text = open(path).read()
                files[path] = text[:text.index('#[cfg(test)]\nmod tests {')] if '#[cfg(test)]\nmod tests {' in text else text

def show(title, places):
    print('==', title)
    for place in places:
        print(place)
    print('--', len(places))

def lines(pattern, leave_out=None):
    found = []
    for path in sorted(files):
        for number, line in enumerate(files[path].split('\n'), 1):
            if line.strip().startswith(('//', 'ghost use', 'use')):
                continue
            if re.search(pattern, line) and not (leave_out and re.search(leave_out, line)):
                found.append(f'{path}:{number}: {line.strip()}')
    return found

def passed_on():
    found = []
    for path in sorted(files):
        for match in re.finditer(r'\b(?:Some|None|Ok|Err)(?:\([^\n]*\))? => (?:Some\(|None|Ok\(|Err\(|unreachable|\{\}|\w+,\n)[^\n]*|let (?:Some|Ok)\([^\n]* else \{\n *return (?:Err|None|false|Ok\(None)[^\n]*', files[path]):
            found.append(f'{path}:{files[path].count(chr(10), 0, match.start()) + 1}: ' + ' '.join(match.group(0).split()))
    return found

def twins():
    if not shutil.which('duplicates'):
        return []
    with tempfile.TemporaryDirectory() as copy:
        for path, text in files.items():
            target = os.path.join(copy, path[:-3] + '.rs')
            os.makedirs(os.path.dirname(target), exist_ok=True)
            kept = ['' if line.startswith(('use ', 'ghost use ', '    ghost use ', '//')) else line for line in text.split('\n')]
            open(target, 'w').write('\n'.join(kept))
        told = subprocess.run(['duplicates', '--repo', copy, '--min-lines', '4', '--most', '200'], capture_output=True, text=True).stdout
    return [line for line in told.split('\n') if re.match(r'D\d+ ', line)]

def clauses():
    count = collections.Counter()
    for text in files.values():
        for clause in re.findall(r'(?:requires|ensures)(?: \w+)? \{ (.*) \}', text):
            plain = re.sub(r'\.(now|old|new|entry)\b', '', clause)
            parts = {plain} | {'.. ' + part + ' ..' for part in re.findall(r'let \w+ = .*? in (?!let)', plain) + re.findall(r'code F\.\w+ F\.mul \(.*?\) \(.*?\)', plain)}
            for part in parts:
                count[part] += 1
    return [f'{n} times: {clause}' for clause, n in count.most_common() if n >= 3]

def travelling():
    count = collections.Counter()
    for text in files.values():
        for signature in re.findall(r'\bfn \w+(?:<[^(]*>)?\(([^)]*)\)', text):
            names = re.findall(r'(\w+): ', signature)
            for i in range(len(names)):
                for j in range(i + 1, len(names)):
                    for k in range(j + 1, len(names)):
                        count[(names[i], names[j], names[k])] += 1
    return [f'{n} functions: {", ".join(names)}' for names, n in count.most_common() if n >= 3]

def proofs():
    answers = total = 0
    for folder, _, names in os.walk('crates'):
        if '/proofs/' in folder + '/' and '/out' not in folder:
            for name in names:
                if name in ('Answers.antt', 'Invariants.antt', 'Proof.antt'):
                    text = open(os.path.join(folder, name)).read()
                    total += text.count('\n')
                    answers += len(re.findall(r'^(?:abbrev )?pub [^\n]* : goal\.', text, re.M))
    return [f'{total} lines of answers and invariants', f'{answers} answers and invariants']

show('options and results taken apart only to be passed on', passed_on())
show('numbers for kinds and for refusals', lines(r'fn number\(|=> \d+,$|^ +\d+$|\b(refusal|part): u8|"refused \d'))
show('twins: pairs that share four lines or more', twins())
show('loops over numbers, and indices', lines(r'\bwhile\b|\bloop \{|for .* in .*\.\.|\+= 1;|\w\[[a-z]\w*( \+ \w+)?\]|\w\[\w+ as usize\]|\w\[.*\.\..*\]'))
show('equality, copying, conversion and printing by hand', lines(r'fn (number|in_numbers|name_part|describe|refuse|list_blocks|four_bytes|byte_at|plus)\b|impl.*\b(Copy|Clone|PartialEq|Eq|Ord|PartialOrd) for|format!\('))
show('clauses that stand in three functions or more', clauses())
show('three parameters that three functions or more take together', travelling())
show('buffers with a length beside, places in a row, tables', lines(r'\[0[a-z0-9]*; [A-Z0-9_]+\];|&mut \w+\[0\.\.|^ +(pub(\(crate\))? )?(place|start|bytes|len): |: \[u(8|32); \d+\]'))
show('switches on a step, tables of functions', lines(r'\bdyn \b|\bfn\(|: &\[fn'))
show('answers in proofs/', proofs())
